"""IBANs and BICs: whether they can be right, by ISO 13616 and ISO 9362.

The check digits find any digit that is wrong and any two neighbours that changed places, but for B and 1, M and 2, X and 3, which come to
the same number either way; the length is that of the country.
"""

import re

FORM = re.compile(r"[A-Z]{2}[0-9]{2}[0-9A-Z]{11,30}", re.ASCII)
BIC = re.compile(r"[A-Z]{4}[A-Z]{2}[A-Z0-9]{2}([A-Z0-9]{3})?", re.ASCII)
COUNTRY = re.compile(r"[A-Z]{2}", re.ASCII)
DIVISOR = 97
# How long an IBAN is, by its country, as the registry of ISO 13616 has it.
LENGTHS = {
    it[:2]: int(it[2:])
    for it in (
        "AD24 AE23 AL28 AT20 AZ28 BA20 BE16 BG22 BH22 BI27 BR29 BY28 CH21 CR22 CY28 CZ24 DE22 DJ27 DK18 DO28 EE20 EG29 ES24 FI18 FK18 "
        "FO18 FR27 GB22 GE22 GI23 GL18 GR27 GT28 HN28 HR21 HU28 IE22 IL23 IQ23 IS26 IT27 JO30 KW30 KZ20 LB28 LC32 LI21 LT20 LU20 LV21 "
        "LY25 MC27 MD24 ME22 MK19 MN20 MR27 MT31 MU30 NI28 NL18 NO15 OM23 PK24 PL28 PS29 PT25 QA29 RO24 RS22 RU33 SA24 SC31 SD18 SE24 "
        "SI19 SK24 SM27 SO23 ST25 SV28 TL23 TN24 TR26 UA29 VA22 VG24 XK20 YE30"
    ).split()
}


def compact(words: str) -> str:
    """An IBAN or a BIC without the blanks of print, in capital letters."""
    return "".join(words.split()).upper()


def iban_fault(iban: str) -> str:
    """What is wrong with an IBAN, without its digits, and the cure; the empty text where nothing is."""
    if not FORM.fullmatch(iban):
        return "is no IBAN: write country, two check digits and the account, as AT611904300234573201"
    if (length := LENGTHS.get(iban[:2])) is None:
        return f"is of {iban[:2]}, which has no IBANs: look at the first two letters"
    if len(iban) != length:
        return f"has {len(iban)} characters, and one of {iban[:2]} has {length}"
    if number_of(iban[4:] + iban[:4]) % DIVISOR != 1:
        return "has check digits that don't fit: compare it with what the member wrote"
    return ""


def number_of(words: str) -> int:
    """Letters and digits as a number: A is 10, Z is 35."""
    return int("".join(str(int(it, 36)) for it in words))


def bic_fault(bic: str) -> str:
    """What is wrong with a BIC, and the cure; the empty text where nothing is."""
    return "" if BIC.fullmatch(bic) else "is no BIC: write 8 or 11 letters and digits, as BKAUATWW"
