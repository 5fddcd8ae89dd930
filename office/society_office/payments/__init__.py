"""From credited to paid: members, deductions, a ledger, payments, and statements that say what was paid."""
