"""Sallow & Daughter: a small publisher in a harbour town, with its magazine of 200 articles, which stand in articles.txt."""
import os
import re

from site_rows import Site, field, link

ARTICLES = os.path.join(os.path.dirname(os.path.abspath(__file__)), "articles.txt")

# in seconds
YEAR = 31536000
TEN_MINUTES = 600


def site():
    publisher = Site("sallow.example", "Sallow & Daughter", "/node")
    settings(publisher)
    people(publisher)
    sections(publisher)
    pages(publisher)
    books(publisher)
    articles(publisher)
    chrome(publisher)
    return publisher


def settings(publisher):
    publisher.type("page", "Page", [field("body", "Read on", teaser=True)])
    publisher.type("article", "Article", [
        field("standfirst", "In short", teaser=True),
        field("body", "The piece"),
        field("slip", "Slip for the printer", view="view printer slips", edit="edit printer slips"),
    ], submitted=True)
    publisher.type("book", "Book", [
        field("writer", "By", teaser=True),
        field("about", "About it", teaser=True),
        field("price", "Price"),
        field("trade", "Price to the trade", view="view trade prices", edit="edit trade prices"),
    ])
    publisher.role("anonymous", "Passer-by", ["access content", "access user profiles"])
    publisher.role("authenticated", "Reader", ["access content", "access user profiles", "view own unpublished content"])
    publisher.role("author", "Author", ["create article content", "edit own article content"])
    publisher.role("printer", "Printer", ["edit printer slips", "view printer slips"])
    publisher.role("bookshop", "Bookshop", ["view trade prices"])
    publisher.role("editor", "Editor", [
        "administer blocks", "administer menu", "administer nodes", "administer taxonomy", "administer users", "administer views",
        "create article content", "create book content", "create page content", "create url aliases",
        "delete any article content", "edit any article content", "edit any book content", "edit any page content",
        "edit printer slips", "edit trade prices", "view printer slips", "view trade prices",
    ])


def people(publisher):
    publisher.user("admin", "2021-02-01 09:00", "drip-and-plank")
    publisher.user("Wilhelmina Sallow", "2021-02-01 09:10", "slice-of-bread", roles=["author", "editor"])
    publisher.user("August Sallow", "2021-02-01 09:15", "tock-not-tock-and", roles=["author", "printer"])
    publisher.user("Greta Oyelaran", "2021-02-20 17:00", "heron-laughed-once", roles=["author"])
    publisher.user("Pim Castellane", "2021-03-01 21:30", "curtains-late", roles=["author"])
    publisher.user("Ysolde Kemp", "2021-03-01 10:00", "bacon-bookmark", roles=["author"])
    publisher.user("Tomasz Birk", "2021-03-12 08:45", "small-minded-bay", roles=["author"])
    publisher.user("Ada Quennell", "2021-04-02 06:10", "high-at-six", roles=["author"])
    publisher.user("Ferdia Roe", "2021-04-06 11:20", "notebook-and-onions", roles=["author"])
    publisher.user("Nour Hadleigh", "2021-04-19 16:40", "three-silences", roles=["author"])
    publisher.user("Wren Tarrant", "2022-05-12 07:00", "u-for-an-n", roles=["printer"])
    publisher.user("Marguerite Alder", "2023-05-02 10:30", "the-good-ones-point", roles=["bookshop"])


def sections(publisher):
    publisher.term("press", "Press room", "What goes on round the Cormorant, our press, who weighs two tons.")
    publisher.term("essays", "Essays", "Thinking, with a coat on.")
    publisher.term("reviews", "Reviews", "Books by other people, read by Pim Castellane.")
    publisher.term("talks", "Conversations", "Ferdia Roe goes to see somebody, and mostly listens.")
    publisher.term("field", "Field notes", "The marsh, the mole and the hedge, by Greta Oyelaran.")
    publisher.term("stories", "Stories", "By Tomasz Birk, among them all nine parts of The Cartographer's Aunt.")
    publisher.term("poems", "Poems", "Short, as the paper is dear.")
    publisher.term("archive", "From the archive", "Ysolde Kemp opens a box.")
    publisher.term("trans", "Translation", "Between here and Vael.")
    publisher.term("type", "Type and paper", "Lead, ink, rags and glue.")
    publisher.term("sea", "The sea", "It gets into everything.")
    publisher.term("kitchen", "The kitchen table", "Recipes, more or less.")
    publisher.term("later", "Not announced yet", "What we speak of only in the press room.", status=False)


def pages(publisher):
    for key, title, body in (
        ("about", "Who we are",
         "Sallow & Daughter print and publish in Grayle, on the quay, between the ice house and the man who guesses weights. We"
         " make eight books a year at most, none of them thicker than a slice of bread, and a magazine, The Tideline, of which"
         " you're reading the part that needs no paper."),
        ("send", "Send us something",
         "By post, on one side of the sheet, with your address, unless you're nobody. We read everything, twice if it rains."
         " The answer takes a month and gives one reason."),
        ("shop", "Where our books are",
         "In every shop between Grayle and Hollin Ferry, and on Wednesdays on the bench. Marguerite Alder may let you have one"
         " if you can say why."),
    ):
        publisher.node("page", key, title, {"body": body}, "2021-03-01 12:00", "Wilhelmina Sallow", path="/" + key)


def books(publisher):
    def book(key, at, title, writer, about, price, trade, refs=(), status=True):
        publisher.node("book", key, title, {"about": about, "price": price, "trade": trade, "writer": writer}, at,
                       "Wilhelmina Sallow", path="/books/" + key, refs=refs, status=status)

    book("winds", "2021-07-05 09:00", "Winds of the Upper Ossel", "Several hands, most of them cold",
         "Sixty-one winds, with the hour of each, a map, and a slip correcting page 38.", "Nine shillings", "Six and six",
         ["our-first-book-is-out"])
    book("the-well", "2022-06-24 09:00", "The Well", "Wilhelmina Sallow, with a hole by Hadrian Moss",
         "For children from four. The hole goes all the way through.", "Seven shillings", "Five shillings",
         ["a-book-with-a-hole-in-it"])
    book("sermons", "2023-05-01 09:00", "Sermons, Slightly Damp", "Dean Hobley, as far as he was saved",
         "The third that the harbour left us, dried by Mrs Orchard, with her questions in the margin.", "Eleven shillings",
         "Eight shillings", ["the-cellar-is-under-water", "a-conversation-with-a-woman-who-dries-books"])
    book("salt-marsh", "2024-04-02 09:00", "Notes from the Salt Marsh", "Greta Oyelaran",
         "Mud, geese, one puddle and the seventh wave.", "Ten shillings", "Seven and three",
         ["notes-from-the-salt-marsh-mud", "a-year-of-one-puddle"])
    book("the-house", "2025-07-02 09:00", "The House When We're Out", "Ilse Marrun, in English by Nour Hadleigh",
         "Ninety-six pages, three silences, and a letter between y and z.", "Eleven shillings", "Eight shillings",
         ["the-book-with-the-gate-is-out"])
    book("the-aunt", "2025-11-03 09:00", "The Cartographer's Aunt", "Tomasz Birk",
         "All nine parts, with the maps as she drew them and as they were.", "Ten and six", "Seven and nine",
         ["the-cartographers-aunt-first-part", "the-cartographers-aunt-ninth-and-last-part"])
    book("misprints", "2026-01-12 09:00", "Misprints, 2021 to 2025", "The readers, with the printers' consent",
         "Five Christmas dinners. All errors in it are meant, but for those on page 17.", "Five shillings", "Three and nine",
         ["the-misprints-of-the-year-2021", "the-misprints-of-the-year-2025"])
    book("herring", "2026-11-17 09:00", "Herring", "",
         "The life of a woman who salts fish, told by one who does.", "Eleven shillings", "Eight shillings",
         ["herring-is-out"])
    book("skerry", "2026-11-20 09:00", "The Skerry Light (to come)", "Anders Pell, spoken; Ferdia Roe, written down",
         "What the last keeper says to the lamp.", "Not settled", "Not settled",
         ["a-conversation-with-the-last-keeper-of-the-skerry-light"], status=False)


def slug(title):
    """A title as the last part of a path: small letters and digits, no apostrophes, and a stroke for all else."""
    return re.sub("[^a-z0-9]+", "-", title.lower().replace("'", "")).strip("-")


def told():
    """The articles of the file: day, author, sections, marks, title, standfirst, body and references of each.

    A record is a line `DAY AUTHOR | SECTIONS | MARKS`, the title, the standfirst, the body, and perhaps a line `See: ` with the
    titles that it refers to, as in paths. An empty line stands between records.
    """
    with open(ARTICLES, encoding="utf-8") as file:
        records = file.read().strip("\n").split("\n\n")
    for record in records:
        head, title, standfirst, body, *rest = record.split("\n")
        parts = [part.strip() for part in head.split("|")] + [""]
        day, author = parts[0].split(" ", 1)
        refs = rest[0].removeprefix("See: ").split(", ") if rest else []
        yield day, author, parts[1].split(", "), parts[2].split(", "), title, standfirst, body, refs


def articles(publisher):
    """All articles; on the front page are those of the last year of the file, and those that are marked."""
    for number, (day, author, terms, marks, title, standfirst, body, refs) in enumerate(told()):
        at = f"{day} {6 + number * 5 % 12:02}:{number * 17 % 60:02}"
        fields = {"body": body, "standfirst": standfirst}
        if "type" in terms:
            fields["slip"] = "Set in Amory, twelve point, on the grey." if day >= "2025-02" else "Ten point Fell, on what there is."
        publisher.node("article", slug(title), title, fields, at, author, path=f"/tideline/{day[:4]}/{slug(title)}", terms=terms,
                       refs=refs, promote="promoted" in marks or day >= "2026", sticky="sticky" in marks)


def chrome(publisher):
    publisher.listing("frontpage", "/node", "From the quay", promoted=True, types=["article"])
    publisher.listing("tideline", "/tideline", "The Tideline, all of it", types=["article"])
    publisher.listing("recent", "/recent", "Within a year", types=["article", "book"], recent=YEAR, age=TEN_MINUTES)
    publisher.listing("books", "/books", "Our books", types=["book"])
    publisher.listing("poems", "/tideline/poems", "All poems", types=["article"], term="poems")
    publisher.menu("main", "Main menu", [
        link("home", "/node", "From the quay", weight=-10),
        link("tideline", "/tideline", "The Tideline"),
        link("recent", "/recent", "Within a year", parent="tideline", weight=-5),
        link("press", "/taxonomy/term/1", "Press room", parent="tideline"),
        link("essays", "/taxonomy/term/2", "Essays", parent="tideline"),
        link("reviews", "/taxonomy/term/3", "Reviews", parent="tideline"),
        link("talks", "/taxonomy/term/4", "Conversations", parent="tideline"),
        link("field", "/taxonomy/term/5", "Field notes", parent="tideline"),
        link("stories", "/taxonomy/term/6", "Stories", parent="tideline"),
        link("poems", "/tideline/poems", "Poems", parent="tideline"),
        link("archive", "/taxonomy/term/8", "From the archive", parent="tideline"),
        link("trans", "/taxonomy/term/9", "Translation", parent="tideline"),
        link("later", "/taxonomy/term/13", "Not announced yet", parent="tideline", weight=10),
        link("books", "/books", "Books", weight=1),
        link("herring", "/books/herring", "Herring", parent="books"),
        link("house", "/books/the-house", "The House When We're Out", parent="books"),
        link("aunt", "/books/the-aunt", "The Cartographer's Aunt", parent="books"),
        link("skerry", "/books/skerry", "The Skerry Light", parent="books"),
        link("about", "/about", "Who we are", weight=2),
        link("send", "/send", "Send us something", parent="about"),
        link("shop", "/shop", "Where our books are", parent="about"),
    ])
    publisher.block("main_menu", "menu", "header", 0, shows="main")
    publisher.block("greeting", "greeting", "header", 10)
    publisher.block("recent", "listing", "aside", 0, label="Within a year", shows="recent", paths=["/recent", "/node", "/"],
                    hide=True)
    publisher.block("books", "listing", "aside", 5, label="Our books", shows="books", paths=["<front>", "/tideline", "/about"])
    publisher.block("desk", "text", "aside", 10, label="Press room", roles=["printer", "editor"],
                    text="Sorts wanted: k. Sorts to spare: j. The owl is asleep, please don't slam the skylight.")
    publisher.block("clock", "clock", "footer", 0, label="High water or not, it is", age=60)
    publisher.block("address", "text", "footer", 5, text="Sallow & Daughter, The Quay, Grayle. Knock; the bell is for the cat.")
    publisher.block("guard", "csrf", "footer", 20, label="The value that your edits have to carry", roles=["authenticated"])
