"""Texts as banks take them in payments: the Latin letters, digits and marks of SEPA, and no more characters than a field has."""

import re
import unicodedata

# What a bank takes; all else has to be written otherwise.
TAKEN = re.compile(r"[A-Za-z0-9/?:().,'+ -]", re.ASCII)
LETTER = re.compile(r"[A-Za-z0-9]", re.ASCII)
# Letters that no accent makes of a Latin one: those of Latin, Greek and Cyrillic as they are written in a bank's letters.
OTHERS = dict(
    pair.split("=")
    for pair in (
        "Ä=Ae ä=ae Ö=Oe ö=oe Ü=Ue ü=ue ß=ss ẞ=SS Æ=Ae æ=ae Œ=Oe œ=oe Ø=O ø=o Å=A å=a Đ=D đ=d Ð=D ð=d Ħ=H ħ=h ı=i ĸ=k Ł=L ł=l Ŋ=N ŋ=n Þ=Th "
        "þ=th Ŧ=T ŧ=t Ə=A ə=a "
        "Α=A Β=V Γ=G Δ=D Ε=E Ζ=Z Η=I Θ=TH Ι=I Κ=K Λ=L Μ=M Ν=N Ξ=X Ο=O Π=P Ρ=R Σ=S Τ=T Υ=Y Φ=F Χ=CH Ψ=PS Ω=O "
        "α=a β=v γ=g δ=d ε=e ζ=z η=i θ=th ι=i κ=k λ=l μ=m ν=n ξ=x ο=o π=p ρ=r σ=s ς=s τ=t υ=y φ=f χ=ch ψ=ps ω=o "
        "А=A Б=B В=V Г=G Д=D Е=E Ж=ZH З=Z И=I Й=Y К=K Л=L М=M Н=N О=O П=P Р=R С=S Т=T У=U Ф=F Х=H Ц=TS Ч=CH Ш=SH Щ=SHT Ъ=A Ы=Y Ь=Y Э=E "
        "Ю=YU Я=YA Є=YE І=I Ї=YI Ґ=G Ђ=D Ј=J Љ=L Њ=N Ћ=C Џ=D "
        "а=a б=b в=v г=g д=d е=e ж=zh з=z и=i й=y к=k л=l м=m н=n о=o п=p р=r с=s т=t у=u ф=f х=h ц=ts ч=ch ш=sh щ=sht ъ=a ы=y ь=y э=e "
        "ю=yu я=ya є=ye і=i ї=yi ґ=g ђ=d ј=j љ=l њ=n ћ=c џ=d "
        "–=- —=- ‐=- ‑=- −=- ’=' ‘=' `=' ´=' “=' ”=' „=' «=' »=' &=+ @=(at) _=- €=EUR ⁄=/"
    ).split()
)
# What stands for a character that has no letters.
UNKNOWN = "."


def as_taken(words: str, most: int) -> str:
    """A text in the characters of banks, in one line, of no more than so many of them; no slash at its ends, and no two together."""
    told = "".join(letters_of(it) for it in unicodedata.normalize("NFC", words))
    told = re.sub(r"/+", "/", " ".join(told.split()))
    return told.strip("/ ")[:most].strip("/ ")


def letters_of(character: str) -> str:
    """A character as a bank writes it: nothing for marks without a form, a point for a letter of another script."""
    if TAKEN.fullmatch(character):
        return character
    if character in OTHERS:
        return OTHERS[character]
    if character.isspace():
        return " "
    parts = unicodedata.normalize("NFKD", character)
    if parts != character:
        return "".join(letters_of(it) for it in parts)
    return "" if unicodedata.category(character)[0] in "MC" else UNKNOWN


def can_be_read(words: str) -> bool:
    """Whether a letter or a digit is left of a text in the characters of banks."""
    return LETTER.search(as_taken(words, len(words) * 4 + 1)) is not None
