"""The payment file, field by field, for names and addresses of hostile letters; and what a bank's lists tell."""

import dataclasses
import datetime
import pathlib
import re
import shutil
import subprocess
import xml.etree.ElementTree as xml

import pytest
from command import Word
from conftest import ROOT
from society_office.basics.errors import OfficeError
from society_office.payments import bank_lists, bank_text, pain
from society_office.payments.pain import Office, Order, Payee
from society_office.payments.words import Words, read
from treasury import camt

SPACE = "{urn:iso:std:iso:20022:tech:xsd:pain.001.001.09}"
# What a bank takes in a text, and in a reference.
TEXT = re.compile(r"[A-Za-z0-9/?:().,'+ -]+", re.ASCII)
IBAN, BIC = "AT611904300234573201", "BKAUATWW"
HOSTILE = [
    "Anna Writer",
    "Ärger & Söhne <GmbH>",
    "]]><!--x--><Nm>y</Nm>",
    "//Żółć//Łódź/",
    "Борис Щукин-Хруцкий",
    "Ἀθηνᾶ Ὀδύσσεια",
    'O\'Neil "the" \\ Co\u00a0KG',
    "ﬁ ½ № Ⅷ ™",
    "Þórður Đorđe ß ŉ ı İ",
    "x" * 300,
    " / leading and trailing / ",
    "a\tb\nc\x00d\u200be\u202ef",
    "王小明 Wang",
    "=cmd|' /C calc'!A0",
    "é" * 71,
    "Ǆ" * 40,
]
ELEMENTS = {
    "CdtTrfTxInf": ["PmtId", "Amt", "CdtrAgt", "Cdtr", "CdtrAcct", "RmtInf"],
    "PmtInf": "PmtInfId PmtMtd BtchBookg NbOfTxs CtrlSum PmtTpInf ReqdExctnDt Dbtr DbtrAcct DbtrAgt ChrgBr CdtTrfTxInf".split(),
    "GrpHdr": ["MsgId", "CreDtTm", "NbOfTxs", "CtrlSum", "InitgPty"],
    "PstlAdr": ["PstCd", "TwnNm", "Ctry", "AdrLine"],
}
MOST = {"Nm": 70, "AdrLine": 70, "TwnNm": 35, "PstCd": 16, "Ctry": 2, "Ustrd": 140}
MOST |= dict.fromkeys(["MsgId", "PmtInfId", "EndToEndId", "InstrId"], 35)


def office(currency: str = "EUR", per: int = 100, decimals: int = 2) -> Office:
    return Office(900, "Exämple Society", IBAN, "", currency, per, decimals)


def order(payees: list[Payee], paying: Office | None = None) -> Order:
    made = datetime.datetime(2026, 4, 2, 10, tzinfo=datetime.UTC)
    return Order(12, made, datetime.date(2026, 4, 7), paying or office(), tuple(payees))


def payee(k: int, name: str = "Anna", units: int = 471, iban: str = IBAN, bic: str = "") -> Payee:
    return Payee(f"M{k}", units, name, name, name, name, "AT", iban, bic, "new")


def fields(content: bytes) -> xml.Element:
    root = xml.fromstring(content)
    assert root.tag == f"{SPACE}Document" and all(it.tag.startswith(SPACE) for it in root.iter())
    for it in root.iter():
        it.tag = it.tag.removeprefix(SPACE)
    return root


def check_texts(root: xml.Element) -> None:
    """Characters, lengths and the order of elements, as the rules have them."""
    for it in root.iter():
        words = (it.text or "").strip()
        if not len(it):
            assert TEXT.fullmatch(words) and words == it.text, (it.tag, it.text)
            assert len(words) <= MOST.get(it.tag, 140) and not words.startswith("/") and not words.endswith("/") and "//" not in words
        else:
            assert not words
        if it.tag in ELEMENTS:
            found = list(dict.fromkeys(one.tag for one in it))
            assert found == [one for one in ELEMENTS[it.tag] if one in found], it.tag


def test_each_field_of_a_payment_file() -> None:
    payees = [payee(k, name, 100 + k) for k, name in enumerate(HOSTILE)] + [payee(99, "Cash", 5_000, "otherwise")]
    payees[3] = payee(3, "Łódź", 1, "DE89370400440532013000", BIC)
    content = pain.payment_file(order(payees))
    root = fields(content)
    check_texts(root)
    total = sum(it.units for it in payees[:-1])
    for place in ("GrpHdr", "PmtInf"):
        [group] = root.iter(place)
        assert group.findtext("NbOfTxs") == str(len(HOSTILE)) and group.findtext("CtrlSum") == f"{total / 100:.2f}"
    assert (root.findtext(".//MsgId"), root.findtext(".//PmtInfId"), root.findtext(".//PmtMtd")) == ("900-PAY-12", "900-PAY-12", "TRF")
    assert (root.findtext(".//CreDtTm"), root.findtext(".//ReqdExctnDt/Dt")) == ("2026-04-02T10:00:00Z", "2026-04-07")
    assert (root.findtext(".//InitgPty/Nm"), root.findtext(".//Dbtr/Nm")) == ("Exaemple Society", "Exaemple Society")
    assert (root.findtext(".//DbtrAcct/Id/IBAN"), root.findtext(".//DbtrAgt//Othr/Id")) == (IBAN, "NOTPROVIDED")
    assert (root.findtext(".//SvcLvl/Cd"), root.findtext(".//ChrgBr"), root.findtext(".//BtchBookg")) == ("SEPA", "SLEV", "true")
    listed = list(root.iter("CdtTrfTxInf"))
    assert len(listed) == len(HOSTILE)
    for it, told in zip(payees, listed):
        amount = told.find("Amt/InstdAmt")
        assert amount is not None and (amount.text, amount.attrib) == (f"{it.units / 100:.2f}", {"Ccy": "EUR"})
        assert told.findtext("PmtId/EndToEndId") == told.findtext("PmtId/InstrId") == f"900-PAY-12-{it.member}"
        assert (told.findtext("CdtrAcct/Id/IBAN"), told.findtext("CdtrAgt/FinInstnId/BICFI")) == (it.iban, it.bic or None)
        assert told.findtext("Cdtr/PstlAdr/Ctry") == "AT" and told.findtext("Cdtr/Nm")
        assert told.findtext("RmtInf/Ustrd") == f"Exaemple Society, payment 12 to {it.member}"
    assert pain.payment_file(order(payees)) == content


def test_who_pays_in_a_payment_file() -> None:
    paying = Office(7, "x" * 200, IBAN, BIC, "EUR", 100, 2)
    content = pain.payment_file(order([payee(1)], paying))
    root = fields(content)
    check_texts(root)
    assert (root.findtext(".//InitgPty/Nm"), root.findtext(".//Dbtr/Nm"), root.findtext(".//Ustrd")) == ("x" * 70, "x" * 70, "x" * 140)
    assert (root.findtext(".//DbtrAcct/Id/IBAN"), root.findtext(".//DbtrAgt/FinInstnId/BICFI")) == (IBAN, BIC)
    assert root.findtext(".//MsgId") == root.findtext(".//PmtInfId") == "007-PAY-12"
    assert root.findtext(".//InstrId") == root.findtext(".//EndToEndId") == "007-PAY-12-M1"
    listed = f"reference,amount,day\n{root.findtext('.//EndToEndId')},4.71,2026-04-07\n"
    [found], others = bank_lists.read(listed.encode(), "x", Words(), False)
    assert (found.society, found.batch, found.member, others) == (7, 12, "M1", 0)


def test_the_address_of_who_is_paid() -> None:
    person = Payee("M1", 471, "Anna", "Road 1", "1010", "Wien", "AT", IBAN, "", "new")
    listed = [("PstCd", "1010"), ("TwnNm", "Wien"), ("Ctry", "AT"), ("AdrLine", "Road 1")]
    for it, wanted in ((person, listed), (dataclasses.replace(person, street="", postcode=""), listed[1:3])):
        place = fields(pain.payment_file(order([it]))).find(".//PstlAdr")
        assert place is not None and [(one.tag, one.text) for one in place] == wanted


def refused(content: bytes, folder: pathlib.Path) -> str:
    """What xmllint says against a payment file by the schema of the message; nothing of one that is right."""
    if shutil.which("xmllint") is None:
        pytest.skip("there is no xmllint: apt-get install libxml2-utils")
    (folder / "payment.xml").write_bytes(content)
    words: list[Word] = ["xmllint", "--nonet", "--noout", "--schema", ROOT / "office/tests/pain.xsd", folder / "payment.xml"]
    done = subprocess.run(words, capture_output=True, text=True, check=False)
    return done.stderr if done.returncode else ""


@pytest.mark.parametrize("currency", ["EUR", "CHF"])
def test_a_payment_file_is_right_by_the_schema_of_the_message(tmp_path: pathlib.Path, currency: str) -> None:
    payees = [payee(k, name, 100 + k, bic=BIC if k % 2 else "") for k, name in enumerate(HOSTILE)]
    content = pain.payment_file(order(payees, office(currency)))
    assert refused(content, tmp_path) == ""
    wrong = [
        (b"<NbOfTxs>16</NbOfTxs>", b"<NbOfTxs>x</NbOfTxs>"),
        (b"<PmtMtd>TRF</PmtMtd>", b""),
        (b"<MsgId>900-PAY-12</MsgId>", b"<MsgId>/900</MsgId>"),
        (b"<Nm>Anna Writer</Nm>", "<Nm>Änna</Nm>".encode()),
        (b"<Nm>Anna Writer</Nm>", b"<Nm>" + b"x" * 71 + b"</Nm>"),
        (b">1.00<", b">0.00<"),
    ]
    for old, new in wrong:
        assert old in content and "fails to validate" in refused(content.replace(old, new), tmp_path), old


@pytest.mark.parametrize(
    "words, told",
    [
        ("Ärger & Söhne <GmbH>", "Aerger + Soehne .GmbH."),
        ("//Żółć//Łódź/", "Zolc/Lodz"),
        ("Борис Щукин", "Boris SHTukin"),
        ("Ἀθηνᾶ", "Athina"),
        ("ﬁ ½ №", "fi 1/2 No"),
        ("Þórður Đorđe ß", "Thordur Dorde ss"),
        ("a\tb\nc\x00d\u200be", "a b cde"),
        ("王小明", "..."),
        ("x" * 71, "x" * 70),
        ("x" * 69 + "/y", "x" * 69),
        ("", ""),
    ],
)
def test_letters_as_banks_take_them(words: str, told: str) -> None:
    assert bank_text.as_taken(words, 70) == told


def test_every_character_is_told_in_characters_of_banks() -> None:
    for number in range(0x3000):
        told = bank_text.letters_of(chr(number))
        assert told == "" or TEXT.fullmatch(told), hex(number)


def test_a_name_has_to_have_a_letter() -> None:
    assert bank_text.can_be_read("Ж") and bank_text.can_be_read("王1") and not bank_text.can_be_read("王 -/")


@pytest.mark.parametrize(
    "currency, per, decimals, units, amount",
    [
        ("EUR", 100, 2, 471, "4.71"),
        ("EUR", 1_000, 2, 4_710, "4.71"),
        ("EUR", 1, 2, 4, "4.00"),
        ("EUR", 10, 2, 47, "4.70"),
        ("JPY", 1, 0, 471, "471"),
        ("KWD", 1_000, 3, 4_712, "4.712"),
        ("EUR", 100, 2, 10**15 + 5, "10000000000000.05"),
    ],
)
def test_amounts_of_a_currency(currency: str, per: int, decimals: int, units: int, amount: str) -> None:
    root = fields(pain.payment_file(order([payee(1, units=units)], office(currency, per, decimals))))
    found = root.find(".//InstdAmt")
    assert found is not None and (found.text, found.get("Ccy")) == (amount, currency) and root.findtext(".//CtrlSum") == amount
    assert (root.find(".//PmtTpInf") is not None) == (currency == "EUR")
    assert root.findtext(".//ChrgBr") == ("SLEV" if currency == "EUR" else "SHAR")
    words = Words(currency=currency, units=per, decimals=decimals)
    assert words.units_of(amount) == units and words.amount(units) == amount and words.amount(-units) == f"-{amount}"
    assert units % words.step == 0


@pytest.mark.parametrize("amount", ["", "x", "4,7,1", "-4.71", "4.711", "1e3", "٤", "4.", ".5", "1_0", "1 000.00"])
def test_what_is_no_amount(amount: str) -> None:
    assert Words().units_of(amount) is None


@pytest.mark.parametrize(
    "line, said",
    [
        ("curency EUR", "line 1: write one of name, address, iban"),
        ("currency eur", "line 1: a currency is three capital letters"),
        ("units 12", "line 1: how many units make one of the currency is 1, 10, 100"),
        ("units 0", "line 1: how many units make one"),
        ("decimals 5", "line 1: a currency has 0 to 4 decimals"),
        ("minimum -1", "line 1: write a number of units"),
        ("iban AT611904300234573202", "line 1: the office's IBAN has check digits that don't fit"),
        ("bic XX", "line 1: the office's BIC is no BIC"),
        ("address a\u202eb", "line 1: write the address in one line"),
        ("name 王", "line 1: the name has no letter that a bank takes"),
        ("units 10\nunits 100", "line 2: units is there twice"),
    ],
)
def test_words_of_the_office_that_are_wrong(tmp_path: pathlib.Path, line: str, said: str) -> None:
    file = tmp_path / "payments.txt"
    file.write_text(line + "\n")
    with pytest.raises(OfficeError, match="payments.txt") as raised:
        read(file)
    assert said in str(raised.value) and "AT6119" not in str(raised.value)


def test_words_of_the_office_as_people_write_them(tmp_path: pathlib.Path) -> None:
    file = tmp_path / "payments.txt"
    file.write_text("name  EXAMPLE & CO  # of before\niban at61 1904 3002 3457 3201\nbic bkau atww\nunits 1000\ndecimals 3\nminimum 50\n")
    assert read(file) == Words("EXAMPLE & CO", "", IBAN, BIC, "EUR", 1_000, 3, 50)


@pytest.mark.parametrize("are_returns", [False, True])
def test_a_notification_tells_what_was_paid_and_what_came_back(are_returns: bool) -> None:
    text = camt([("900-PAY-12-M1", "4.71"), ("OTHER", "9.00")], are_returns)
    [found], others = bank_lists.read(text.encode(), "x.xml", Words(), False)
    assert (found.society, found.batch, found.member, found.units, found.day) == (900, 12, "M1", 471, datetime.date(2026, 12, 1))
    assert found.is_return == are_returns and found.why == ("AC04" if are_returns else "") and others == 1
    older = text.replace("camt.054.001.08", "camt.054.001.02").replace("<Amt Ccy='EUR'>4.71</Amt><RtrInf>", "<RtrInf>")
    assert bank_lists.read(b"\xef\xbb\xbf" + older.encode(), "x.xml", Words(), False)[0] == [found]


@pytest.mark.parametrize(
    "entry, own, reason, came_back",
    [
        ("DBIT", "", False, False),
        ("CRDT", "", False, True),
        ("DBIT", "", True, True),
        ("CRDT", "", True, True),
        ("DBIT", "CRDT", False, True),
        ("CRDT", "DBIT", False, False),
        ("DBIT", "DBIT", True, True),
    ],
)
def test_what_came_back_by_its_side_or_its_reason(entry: str, own: str, reason: bool, came_back: bool) -> None:
    side = f"<CdtDbtInd>{own}</CdtDbtInd>" if own else ""
    told = "<RtrInf><Rsn><Cd>AC04</Cd></Rsn><AddtlInf>closed</AddtlInf></RtrInf>" if reason else ""
    text = camt([("900-PAY-12-M1", "4.71")], False).replace("<CdtDbtInd>DBIT<", f"<CdtDbtInd>{entry}<")
    text = text.replace("</TxDtls>", f"{side}{told}</TxDtls>")
    [found], others = bank_lists.read(text.encode(), "x", Words(), False)
    assert (found.is_return, found.why, others) == (came_back, "AC04 closed" if reason else "", 0)


def test_the_day_is_that_of_the_banks_book() -> None:
    booked = "<BookgDt><Dt>2026-12-01</Dt></BookgDt>"
    for value in ("<ValDt><Dt>2026-12-09</Dt></ValDt>", "<ValDt><DtTm>2026-12-09T10:00:00Z</DtTm></ValDt>"):
        text = camt([("900-PAY-12-M1", "4.71")], False).replace(booked, value + booked)
        [found], _ = bank_lists.read(text.encode(), "x", Words(), False)
        assert found.day == datetime.date(2026, 12, 1)


@pytest.mark.parametrize(
    "text, said",
    [
        ("<a", "x.xml: it is no XML"),
        ("<a/>", "x.xml: it is no notification"),
        ('<!DOCTYPE a [<!ENTITY b "c">]><a>&b;</a>', "x.xml: a notification of a bank declares no types"),
        (camt([("900-PAY-1-M1", "4.711")], False), "x.xml, payment 1: '4.711' is no amount"),
        (camt([("900-PAY-1-M1", "4.71")], False).replace("Ccy='EUR'", "Ccy='CHF'"), "x.xml, payment 1: it is in CHF"),
        (camt([("900-PAY-1-M1", "4.71")], False).replace("2026-12-01", "soon"), "x.xml, payment 1: 'soon' is no day"),
        ("reference;amount\n", "x.xml: its first line has to be reference,amount,day,why"),
    ],
)
def test_a_list_that_is_wrong_is_told(text: str, said: str) -> None:
    with pytest.raises(OfficeError) as raised:
        bank_lists.read(text.encode(), "x.xml", Words(), False)
    assert str(raised.value).startswith(said)
