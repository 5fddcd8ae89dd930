"""All commands of payments, as the command `society-office` has them."""

from society_office.payments.commands import group as members
from society_office.payments.pay_commands import adjust, show_ledger
from society_office.payments.pay_commands import group as pay
from society_office.payments.statement_commands import statement

members.add_command(statement)
COMMANDS = (members, pay, adjust, show_ledger)
