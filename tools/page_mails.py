"""Mails that tools/page-test makes: a Maildir of a harbour's crew, by a seed, with some that mean harm or are odd."""
import datetime
import email.message
import os
import random

PEOPLE = (
    "Ann Quay <ann@quay.example>", "Ben Mole <ben@quay.example>", "Cleo Pier <cleo@pier.example>",
    "Harbour Office <office@harbour.example>", "Dora Lang <dora@press.example>", "Émile Côte <emile@cote.example>",
)
SUBJECTS = ("Moorings for the winter", "Regatta, results", "Crane at the south quay", "Invoice for the old mole",
            "Lamps along the north quay", "Storm warning", "Minutes of the meeting", "Key of the boat house")
SENTENCES = (
    "The crane at the south quay is out of order until the end of the week.",
    "Please choose a mooring before the end of October.",
    "I take the mooring at the south quay, next to the crane.",
    "The north quay is full, and the old mole is closed in winter.",
    "Who has the key of the boat house? It was on the hook on Sunday.",
    "The regatta begins at ten, if the wind lets us.",
    "The invoice is paid; the receipt is with the harbour office.",
    "Lamps along the mole will be lit from four o'clock on.",
    "There was ice on the quay this morning, so mind your step.",
    "The meeting is moved to Tuesday, in the boat house.",
    "Nobody has seen the dinghy since the storm.",
    "Das Café am Kai hat wieder offen, und das Bier ist kühl.",
)
FIRST_DAY = datetime.datetime(2022, 1, 3, 6, 30, tzinfo=datetime.timezone.utc)
HOSTILE = "<script>document.title='taken'</script><img src=x onerror=\"document.title='taken'\">"


def mail(identifier, subject, body, sender=PEOPLE[0], to=PEOPLE[3], sent=FIRST_DAY):
    made = email.message.EmailMessage()
    made["Message-ID"], made["Subject"], made["From"], made["To"] = f"<{identifier}@quay.example>", subject, sender, to
    if sent:
        made["Date"] = sent
    made.set_content(body)
    return made.as_bytes()


def odd_mails():
    """Mails that a page has to show as the text that they are."""
    later = FIRST_DAY + datetime.timedelta(days=1200)
    body = f"A hostile body: {HOSTILE}\n</div></main><h1>taken</h1> & &lt;b&gt;"
    yield mail("hostile", f"Hostile {HOSTILE}", body, sent=later)
    yield mail("turned", "Turned \u202egnp.exe", "A name that is turned: \u202egnp.exe and \x07 a bell.", sent=later)
    yield mail("undated", "Undated lamp", "A mail without a date.", sent=None)
    yield mail("long", "Long " + "w" * 3000, "One word of three thousand letters: " + "v" * 3000, sent=later)
    yield mail("a&b=c?d#e/f\"g'", "Identifier with marks", "It has marks that mean something in a link.", sent=later)


def paragraph(chance):
    return " ".join(chance.choices(SENTENCES, k=chance.randint(1, 4)))


def all_mails(count, seed):
    """So many mails over some four years, and the odd ones behind them."""
    chance, sent = random.Random(seed), FIRST_DAY
    for number in range(count):
        sent += datetime.timedelta(minutes=chance.randrange(60 * 48 * 1500 // max(count, 1) + 1))
        sender, to = chance.sample(PEOPLE, 2)
        body = "\n\n".join(paragraph(chance) for _ in range(chance.randint(1, 4)))
        reply = chance.choice(("", "", "Re: "))
        yield mail(f"m{number}", f"{reply}{chance.choice(SUBJECTS)} {number}", body, sender, to, sent)
    yield from odd_mails()


def put_mails(folder, mails, prefix=""):
    """Delivers mails into a Maildir."""
    for part in ("tmp", "new", "cur"):
        os.makedirs(f"{folder}/{part}", exist_ok=True)
    for number, data in enumerate(mails):
        name = f"{prefix}{number:06}.quay"
        with open(f"{folder}/tmp/{name}", "wb") as file:
            file.write(data)
        os.rename(f"{folder}/tmp/{name}", f"{folder}/new/{name}")
