"""The page for staff over the office of a day: what it shows, a work looked up, and what is sent by its form."""
import json
import pathlib
import time

from bodies import changed, order_body, plays, works_file
from browser import Browser
from desk_offices import ALPHA, BETA, GAMMA, MARKUP, rejected_works
from desk_shown import compare, groups, rows, state, text_of


# What each fault means and its cure, by kind and number.
Faults = dict[str, dict[str, dict[str, str]]]


def check_day(browser: Browser, faults: Faults) -> None:
    waits = [BETA, "Beta Verlag", "2", "4", "3", ""]
    compare(
        "day: senders",
        rows(browser, "senders"),
        [waits, [ALPHA, "Alpha Music", "3", "", "", ""], [GAMMA, "Gamma & <b>Söhne</b>", "0", "", "", ""]],
    )
    fault = faults["transaction"]["5"]
    compare(
        "day: rejected", groups(browser), [[f"1 work of {BETA} Beta Verlag, fault 5: {fault['means']}", [["2", "X2", MARKUP.decode()]]]]
    )
    compare("day: its cure", text_of(browser, "#rejected .cure"), f"Cure: {fault['cure']}.")
    compare(
        "day: all was looked through",
        state(browser, "rejected"),
        "All applied files of these senders were looked through. Rejected works: 1.",
    )
    compare(
        "day: pools",
        rows(browser, "pools"),
        [["2", "10,000", "6", "0 (0.0 %)", "Credits"], ["1", "100,000", "7", "4,286 (4.3 %)", "Credits"]],
    )
    balances = [(it[0], it[2], it[3]) for it in rows(browser, "balances")]
    units = [("I00000000295", "77,857"), ("I00000000199", "18,929"), (f"P{BETA}A1", "8,928"), ("UNCLAIMED", "4,286")]
    compare("day: balances", balances, [(account, it, it) for account, it in units])
    compare("day: sums", browser.value("document.querySelector('.sums').textContent"), "Balances 110,000; pools 110,000: they agree.")


def set_form(browser: Browser, place: str, **fields: str) -> None:
    """Sets fields of a section's form, as a hand would."""
    for name, value in fields.items():
        browser.value(
            f"""(() => {{
            const field = document.querySelector('#{place} form').elements['{name}'];
            field.value = {json.dumps(value)};
            const one = field instanceof RadioNodeList ? [...field].find((it) => it.checked) : field;
            one.dispatchEvent(new Event('change', {{ bubbles: true }}));
        }})()"""
        )


def submit(browser: Browser, place: str) -> None:
    """Presses a form's button, and waits until it can be pressed again."""
    browser.value(f"document.querySelector('#{place} form').requestSubmit()")
    browser.wait_for(f"!document.querySelector('#{place} form button').disabled")


def send_file(browser: Browser, folder: pathlib.Path, body: bytes) -> None:
    path = folder / "sent"
    path.write_bytes(body)
    browser.choose_file("#send input[type=file]", path)
    # The sender is chosen by the file's first line.
    time.sleep(0.2)


def look_up(browser: Browser) -> None:
    """Looks a work up, and one that is none."""
    set_form(browser, "work", sender=ALPHA, work="W1")
    submit(browser, "work")
    lines = browser.value("[...document.querySelectorAll('#work dd')].map((it) => it.textContent)")
    compare("a work", lines[:5], ["FIRST SONG", "W1", "T-034.524.680-1", "ATABC2600001", "revision 1, by file 2"])
    set_form(browser, "work", sender=BETA, work="X2")
    submit(browser, "work")
    compare("no work", state(browser, "work"), f"{BETA} has no work X2 in the files that are applied.")


def send_by_form(browser: Browser, folder: pathlib.Path, faults: Faults) -> None:
    """Sends a file, one of rejected works, a faulty one, a return and an order."""
    send_file(browser, folder, changed(works_file(7, 1, BETA), 3, 20, MARKUP))
    compare("number offered", browser.value("document.querySelector('#send form').number.value"), "3")
    submit(browser, "send")
    compare("a file", state(browser, "send"), "File 3 is applied; all files up to 4 have come.")
    compare(
        "its works",
        browser.value("[...document.querySelectorAll('#send li')].map((it) => it.textContent)"),
        [f"W7 {MARKUP.decode()}: registered"],
    )
    compare("senders then", rows(browser, "senders")[1], [BETA, "Beta Verlag", "4", "", "", ""])
    send_file(browser, folder, rejected_works(300, 20, BETA))
    submit(browser, "send")
    compare("a file of rejected works", state(browser, "send"), "File 5 is applied; all files up to 5 have come.")
    compare(
        "they are among the rejected",
        state(browser, "rejected"),
        "All applied files of these senders were looked through. Rejected works: 21.",
    )
    compare(
        "in their group", [(name.split(",")[0], len(lines)) for name, lines in groups(browser)], [(f"21 works of {BETA} Beta Verlag", 20)]
    )
    send_file(browser, folder, changed(works_file(8, 1, BETA), 10, 17, b"00000001"))
    set_form(browser, "send", number="6")
    submit(browser, "send")
    fault = faults["file"]["8"]
    wanted = f"Not taken at line 10: fault 8, {fault['means']}. Cure: {fault['cure']}. The number is free still."
    compare("a faulty file", state(browser, "send"), wanted)
    set_form(browser, "send", kind="return", reporter="RADIO2", number="1")
    send_file(browser, folder, plays(1, 3, 7))
    submit(browser, "send")
    wanted = "RADIO2 has never reported. A return stays under its reporter: look whether it is right, and send again."
    compare("a reporter that has never reported", state(browser, "send"), wanted)
    submit(browser, "send")
    compare("a return", state(browser, "send"), "Return 1 is stored.")
    set_form(browser, "send", kind="order")
    submit(browser, "send")
    fault = faults["order"]["1"]
    wanted = f"Not taken: fault 1, {fault['means']}. Cure: {fault['cure']}. The number is free still."
    compare("an order as it was offered", state(browser, "send"), wanted)
    cut = [(it[0], int(it[2])) for it in rows(browser, "senders") if it[2].isdecimal() and it[2] != "0"]
    set_form(browser, "send", order=order_body(5, [[it, 9] for it, _ in cut], []).decode())
    submit(browser, "send")
    set_form(browser, "send", again="5")
    submit(browser, "send")
    compare(
        "a cut too high",
        state(browser, "send"),
        f"Not taken. {cut[0][0]} has all files up to {cut[0][1]} only: wait for the missing ones, or cut it lower.",
    )
    set_form(browser, "send", order=order_body(5_000, cut[:1], [["RADIO2", 1]]).decode())
    submit(browser, "send")
    wanted = f"Not sent: the cut leaves out {', '.join(it for it, _ in cut[1:])}. Close such an order by society-office close."
    compare("an order that lacks a sender", state(browser, "send"), wanted)
    set_form(browser, "send", order=order_body(5_000, cut, [["RADIO2", 1]]).decode())
    submit(browser, "send")
    wanted = f"Pool 3: 5,000 units of the PR, for the returns RADIO2/1, by the files of {len(cut)} senders. "
    compare("an order is shown first", state(browser, "send").partition("A closed")[0], wanted)
    set_form(browser, "send", again="500")
    submit(browser, "send")
    compare("another amount", state(browser, "send"), "Not sent: the amount is another one.")
    set_form(browser, "send", again="5,000")
    submit(browser, "send")
    compare("an order", state(browser, "send"), "Pool 3 is closed.")
    compare("pools then", [it[:2] for it in rows(browser, "pools")], [["3", "5,000"], ["2", "10,000"], ["1", "100,000"]])
    compare("sums then", browser.value("document.querySelector('.sums').textContent"), "Balances 115,000; pools 115,000: they agree.")
