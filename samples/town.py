"""Hollin Ferry: a town with one ferry, a late bell, and a council that keeps some of its papers to itself."""
from site_rows import Site, field, grant, link, record

# what the holders of a grant of the council may do with a private paper
MEMBERS = record("council", 1)
CLERK = record("council", 2, update=True, delete=True)

BODY = [field("summary", "In short", teaser=True), field("body", "Read on")]


def site():
    town = Site("hollinferry.example", "Hollin Ferry", "/welcome")
    settings(town)
    people(town)
    topics(town)
    pages(town)
    news(town)
    events(town)
    papers(town)
    talk(town)
    chrome(town)
    return town


def settings(town):
    town.type("page", "Page", BODY)
    town.type("news", "News", [field("summary", "In short", teaser=True), field("body", "The story")], submitted=True)
    town.type("event", "Event", [
        field("day", "When", teaser=True),
        field("place", "Where", teaser=True),
        field("body", "What"),
    ])
    town.type("paper", "Council paper", [
        field("summary", "The matter", teaser=True),
        field("body", "Decided"),
        field("note", "The clerk's note", view="view clerk notes", edit="edit clerk notes"),
    ], submitted=True)
    town.role("anonymous", "Visitor", ["access comments", "access content"])
    town.role("authenticated", "Townsperson", [
        "access comments", "access content", "access user profiles", "edit own comments", "post comments",
        "view own unpublished content",
    ])
    town.role("editor", "Editor of the pages", [
        "create event content", "create news content", "create page content", "create url aliases",
        "delete own event content", "delete own news content", "edit any event content", "edit any news content",
        "edit any page content", "skip comment approval",
    ])
    town.role("clerk", "Town clerk", [
        "administer blocks", "administer comments", "administer menu", "administer nodes", "administer site configuration",
        "administer taxonomy", "administer users", "administer views", "create event content", "create news content", "create page content",
        "create paper content", "create url aliases", "edit any event content", "edit any news content",
        "edit any page content", "edit clerk notes", "view clerk notes",
    ], grants=[grant("council", 1), grant("council", 2)])


def people(town):
    town.user("admin", "2024-09-02 08:00", "weir-gate-61")
    town.user("Odalys Penhallow", "2024-09-02 08:30", "ink-and-eels", roles=["editor"])
    town.user("Bram Tolliver", "2024-09-02 09:00", "seven-minutes-late", roles=["clerk"])
    town.user("Ines Marchbank", "2024-09-16 18:00", "not-a-bridge", grants=[grant("council", 1)])
    town.user("Teodor Quill", "2024-09-16 18:05", "rather-a-bridge", grants=[grant("council", 1)])
    town.user("Hester Loom", "2024-10-01 10:00", "cake-tins-due")
    town.user("Jory Wick", "2024-10-04 05:40", "left-bank-right-bank", status=False)


def topics(town):
    town.term("river", "River and ferry", "Whatever floats, sinks, leaks or is moored with the wrong knot.")
    town.term("market", "Market", "Wednesday on the Cornhill, by the mistake of a saint.", parent="council")
    town.term("library", "Library", "Books, kites, ladders and the second-best punch bowl.", parent="council")
    town.term("council", "Council", "Nine members, one clerk, and the stove that decides how long they sit.")
    town.term("green", "Meadows and gardens", "The four meadows, the goats that mow them, and the gardens that the goats would like to.",
              parent="council")
    town.term("past", "Old times", "As told by whoever is oldest in the room.")
    town.term("ideas", "Ideas without a date", "Kept by the clerk until somebody seconds them.", status=False)


def page(town, key, path, title, summary, body, at="2024-09-03 10:00", by="Odalys Penhallow", **more):
    town.node("page", key, title, {"body": body, "summary": summary}, at, by, path=path, **more)


def pages(town):
    page(town, "welcome", "/welcome", "Welcome to Hollin Ferry",
         "A town of 4,120 people, one ferry, and a bell that is seven minutes late.",
         "These are the town's own pages. The clerk keeps them, the librarian corrects the spelling, and anybody may ring to"
         " complain. If you are coming for the day, take the 10:05 boat, bring a coat, and leave room for pie.",
         refs=["ferry", "bell", "eel-supper"])
    page(town, "about", "/about", "The town",
         "Where we are, how many, and why there is no bridge.",
         "Hollin Ferry lies on the left bank of the Ossel, a day's walk above the sea and an hour's below the hills. There are"
         " four meadows, three inns, two churches and one ferry. A bridge has been put to the vote eleven times since 1790. It"
         " lost each time, last by nine votes, seven of which belonged to the same family.")
    page(town, "history", "/about/history", "A short history",
         "From a charter with a hole in it to a library in a toll house.",
         "The charter of 1312 grants the town \"a ferry, a fair and\", and then a mouse has eaten the rest. Lawyers have filled"
         " the hole with a mint, a gallows and the right to brew on Sundays; the town settled for the brewing. The great flood"
         " of 1671 stands carved on the Crane Inn at the height of a tall woman's hat. In 1904 the tolls were given up, and the"
         " toll house was given to the books.", terms=["past"])
    page(town, "bell", "/about/bell", "The late bell",
         "Cast in 1588, hung the wrong way round, and never once on time.",
         "The founders of the bell Old Margery hung her facing the river, so that her rope runs through two walls and a"
         " cupboard. By the time a ringer has climbed back from the cupboard, seven minutes have gone. In 1640 the council"
         " resolved to be late along with her. Every clock of the town has been set by Margery ever since, and visitors miss"
         " the boat at their own risk.", terms=["past"])
    page(town, "ferry", "/ferry", "The ferry",
         "Every twenty minutes from the first light to ten at night, unless the river says no.",
         "The Patience carries thirty people, or eleven people and a horse. She is drawn along a cable by hand; passengers may"
         " help, and children under ten are asked not to stop helping halfway. A red flag on the crane means high water, and no"
         " boat. A white one means that the ferrywoman is at dinner.", terms=["river"])
    page(town, "fares", "/ferry/fares", "Fares and freight",
         "A penny a head, and threepence for a thing that can't sit down.",
         "People: one penny. Bicycles, barrows and grandfather clocks: threepence. Horses: sixpence, and their riders nothing."
         " Sheep go by the dozen, and thirteen make a dozen. Who pulls the cable all the way over crosses free.",
         terms=["river"])
    page(town, "library", "/library", "The library",
         "In the old toll house, with the barrier always up.",
         "There are 11,300 books, 40 kites, 16 ladders and a punch bowl on these shelves, all of which may be borrowed by"
         " anyone who lives within the sound of Margery. The reading room looks over the river. The quiet room doesn't look"
         " over anything, which is why it is quiet.", terms=["library"], refs=["hours", "lending"])
    page(town, "hours", "/library/hours", "Opening hours",
         "Tuesday to Saturday, ten to six, by the town's own time.",
         "Tuesday, Thursday and Friday: ten to six. Wednesday: ten to eight, for those who were at market. Saturday: ten to"
         " one, with a story for children at eleven. Closed on Sunday, on Monday, and while the river stands on the steps.",
         terms=["library"])
    page(town, "lending", "/library/lending", "What may be borrowed",
         "Books for a month, ladders for a day, cake tins until the cake is eaten.",
         "Six books at a time for a month; nobody is fined, but Hester Loom will ask you how you liked them. Kites from March to"
         " October. Ladders for a day, and never two to one household, since the business of 2019. Cake tins come back with a"
         " slice in them.", terms=["library"])
    page(town, "council", "/council", "The council",
         "Nine members, elected for three years, who sit on the first Monday of the month.",
         "The council keeps the ferry, the meadows, the library, the market and the drains. Its meetings are open, and the"
         " gallery has cushions. What it may not talk about in the open (the price of land, and people's troubles) is kept in"
         " the members' room, and told as soon as it may be.", terms=["council"], by="Bram Tolliver")
    page(town, "members", "/council/members", "Who sits on the council",
         "Three for the Quay, three for the Cornhill, three for the Meadows.",
         "For the Quay: Ines Marchbank, who presides, Olwen Sprake and Davy Tern. For the Cornhill: Teodor Quill, Marguerite"
         " Oake and Piers Lantern. For the Meadows: Ruth Fallow, Benedikt Ash and young Tamsin Fallow, who sits opposite her"
         " mother and votes against her.", terms=["council"], by="Bram Tolliver")
    page(town, "meetings", "/council/meetings", "Meetings and how to speak at one",
         "First Monday of the month, seven in the evening, over the market hall.",
         "Anybody may speak for as long as a candle of the short kind burns, which is about six minutes. Put your name on the"
         " slate by the stair before half past six. The clerk writes down what you said, and reads it back to you, so that you"
         " may take it back while the candle is still warm.", terms=["council"], by="Bram Tolliver")
    page(town, "services", "/services", "Services",
         "What the town does for you, and on which day.",
         "Water and drains, the market, the moorings, the collection of ashes and rags, and the lamps. If something of ours is"
         " broken, tell the clerk, and tell him where it is: \"by the big tree\" has cost us three days of looking.")
    page(town, "market-page", "/services/market", "The market",
         "Wednesdays on the Cornhill, from seven until the bread is gone.",
         "A pitch is four paces by three and costs a shilling. Bread and vegetables stand uphill, fish stands downhill, and"
         " whoever sells both stands in the middle and is watched. The market is on Wednesday because the saint who granted it"
         " had lost count.", terms=["market"])
    page(town, "waste", "/services/waste", "Ashes, rags and bottles",
         "Put them out on Thursday evening, and not under the plane trees.",
         "Ashes in the iron bin, rags in the sack, bottles in the crate. Bones go to the Crane Inn's dog, by long agreement."
         " What is left may be brought to the yard on Saturday morning, where Benedikt Ash will tell you that it can be"
         " mended.")
    page(town, "moorings", "/services/moorings", "Moorings",
         "Fourteen rings on the quay, and the fifteenth is a door knocker.",
         "A night costs twopence, a winter nine shillings. Ring number one belongs to the ferry, number six is loose, and"
         " number nine is under water from November. Tie up with a round turn and two half hitches; the harbour"
         " book lists all who knew better.", terms=["river"])
    page(town, "contact", "/contact", "How to reach us",
         "By boat, by post, or by calling up the stairs.",
         "The clerk, Market Hall, Hollin Ferry. The office is open from nine to twelve and from two to four, town time. Letters"
         " are answered within the week, and in verse where they came in verse.", by="Bram Tolliver")


def story(town, key, at, title, summary, body, by="Odalys Penhallow", **more):
    town.node("news", key, title, {"body": body, "summary": summary}, at, by, promote=True, **more)


def news(town):
    story(town, "flag", "2025-02-06 07:50", "High water, and the flag is red",
          "The ferry rests until the Ossel is below the third step.",
          "Since Tuesday night the river stands on the fourth step of the quay, and the Patience is tied to the church. Who has"
          " to cross may walk round by Sallow Bridge, which is nineteen miles and very fine in February.", terms=["river"])
    story(town, "goats", "2025-04-22 09:15", "The goats are back on the meadows",
          "Twenty-three of them, and this year with a plan.",
          "From today the Long Meadow is mown by goats again. A movable fence keeps them off the orchids, and a second one, put"
          " up after lunch, keeps them off the first. Children may visit. Straw hats should stay at home.", terms=["green"])
    story(town, "kite-record", "2025-06-14 17:40", "A library kite reaches Nether Sallow",
          "It was due back on Friday.",
          "A blue box kite, borrowed on Monday by the brothers Tern, came down in a pear tree nine miles away. The finder sent"
          " it home by carrier with a note: \"Good string.\" The library has waived the question of how they liked it.",
          terms=["library"], by="Hester Loom")
    story(town, "bridge-eleven", "2025-09-29 22:10", "No bridge, for the eleventh time",
          "1,204 for, 1,213 against, and one ballot with a drawing of a duck.",
          "The vote was counted twice by candlelight. Teodor Quill, who led the Ayes, shook hands with Ines Marchbank, who led"
          " the Noes, and both went home by the same ferry. The duck was held to be an abstention.", terms=["council", "river"],
          refs=["about"])
    story(town, "margery-rope", "2025-11-11 11:07", "Old Margery has a new rope",
          "Forty ells of hemp, and still through the cupboard.",
          "The old rope had lasted since the coronation before last. Its successor was walked up the High Street by the whole"
          " school, and was in its place within the hour, that is to say within an hour and seven minutes.",
          terms=["past"], refs=["bell"])
    story(town, "frost-fair", "2026-01-18 12:30", "The river stood still, and so we danced on it",
          "The first frost fair since 1963 lasted one day and one goose.",
          "By noon there were eleven stalls on the ice below the quay, a fiddler in mittens, and a roast goose on a sledge. At"
          " four the ice remarked upon it, and everybody went home at a walk. The goose was saved.", terms=["river", "past"])
    story(town, "seed-swap", "2026-03-07 14:00", "Seeds for seeds in the reading room",
          "Bring a packet, take a packet, and write on it what it is this time.",
          "Last year's beans that were not beans have been forgiven. This Saturday the long table is cleared for seeds again:"
          " sweet peas, leeks, marrows, and a tin marked \"blue, tall, surprised me\".", terms=["library", "green"],
          by="Hester Loom")
    story(town, "sixth-ring", "2026-05-02 08:20", "Ring number six holds again",
          "The smith has set it in lead, and sat on it.",
          "After two winters of boats that were found elsewhere in the morning, the sixth mooring ring has been set anew. The"
          " smith tested it with a barge and two of her uncles. The door knocker that stands in for number fifteen is kept, by"
          " the wish of the owners of the door.", terms=["river"], refs=["moorings"])
    story(town, "short-candle", "2026-06-01 21:30", "The short candle gets shorter",
          "Speakers at the council now have five minutes and a half.",
          "The chandler has changed his wick. After a debate of two candles the council has let it be so, and thanked him."
          " The clerk reminds all speakers that blowing is not a point of order.", terms=["council"], by="Bram Tolliver")
    story(town, "two-brides", "2026-07-25 19:00", "Two weddings and one ferry",
          "The Patience carried both parties, and one of the cakes twice.",
          "On Saturday two weddings met in the middle of the river. The bands agreed upon a key. The brides exchanged"
          " bouquets, and the grooms, by a mistake of the cable, banks. All were put right before the soup.", terms=["river"])
    story(town, "wednesday-stays", "2026-08-19 16:45", "Market day stays a Wednesday",
          "A letter from the heirs of the saint was read, and not believed.",
          "A gentleman from the coast has offered to prove that Saint Aldric meant Thursday. The stallholders have asked him to"
          " come and prove it on a Wednesday, when they are all there.", terms=["market"], refs=["market-page"])
    story(town, "ladders", "2026-10-13 10:30", "All sixteen ladders are home",
          "For the first time since 2019, and for most of an afternoon.",
          "Hester Loom counted them at two o'clock and had them painted green at three. At a quarter past four the first one"
          " went out again, to fetch the painter's hat from the roof.", terms=["library"])
    story(town, "lamps", "2026-11-20 17:05", "The lamps on the quay burn until ten",
          "So that the last boat finds us, and we find the last boat.",
          "From the first of December all twelve lamps on the quay are lit from dusk to the last crossing. The council thanks"
          " the brewery for the twelfth, which is closer to the brewery than to the quay.", terms=["river", "council"],
          sticky=True)
    town.node("news", "otters", "Otters under the mill (draft)", {
        "body": "To be checked with the miller before this goes out: are there two, or one that is quick? He has promised to"
                " chalk the first.",
        "summary": "At least one, possibly the same.",
    }, "2026-11-24 09:00", "Odalys Penhallow", terms=["river"], status=False, promote=True)
    town.node("news", "cake-tin", "A cake tin came back full (draft)", {
        "body": "All of the cake, none of the name. The committee of the reading room has met about it twice, and now"
                " we need another cake.",
        "summary": "Nobody has claimed the lemon one.",
    }, "2026-11-25 15:20", "Hester Loom", terms=["library"], status=False)


def event(town, key, at, title, day, place, body, **more):
    town.node("event", key, title, {"body": body, "day": day, "place": place}, at, "Odalys Penhallow", **more)


def events(town):
    event(town, "eel-supper", "2026-10-30 12:00", "The eel supper", "12 December 2026, six in the evening",
          "The market hall, both rooms",
          "Eels four ways, and leeks for those who have met one. Bring your own spoon. The song about the miller is sung"
          " without the fifth verse, as agreed.", path="/events/eel-supper", terms=["river", "market"], promote=True)
    event(town, "story-hour", "2026-11-02 10:10", "Story for children", "Every Saturday at eleven", "The library, by the stove",
          "This month: the hen who was elected mayor. The story lasts as long as the apples.", path="/events/story-hour",
          terms=["library"])
    event(town, "ringing", "2026-11-05 19:00", "Learn to ring Old Margery", "Thursdays, half past seven, town time",
          "The tower, door at the back",
          "No strength is needed, only an agreement with the rope. Those who are afraid of cupboards may ring the small bell.",
          path="/events/ringing", terms=["past"])
    event(town, "lantern-boats", "2026-11-12 16:00", "Boats of light", "21 December 2026, at dusk", "Below the quay steps",
          "Fold a boat, put in a candle, and let the river have it. Hooks and a rowing boat wait at the bend to gather them"
          " all again, save the one that always gets away.", path="/events/lantern-boats", terms=["river"], promote=True)
    event(town, "mending", "2026-11-14 09:30", "Mending morning", "The second Saturday of each month, nine to one",
          "The yard, under the roof",
          "Chairs, kettles, hems and clocks, these last by Benedikt Ash, who will set them seven minutes late unless asked"
          " not to.", path="/events/mending")
    event(town, "council-december", "2026-11-16 09:00", "The council meets", "7 December 2026, seven in the evening",
          "Over the market hall",
          "On the paper: the lamps, the fares for 2027, and whether a barge may be called a house. The gallery opens at half"
          " past six.", path="/events/council-december", terms=["council"], refs=["meetings"])


def paper(town, key, at, title, summary, body, note="", private=False, **more):
    fields = {"body": body, "summary": summary}
    if note:
        fields["note"] = note
    grants = [MEMBERS, CLERK] if private else []
    town.node("paper", key, title, fields, at, "Bram Tolliver", terms=["council"], grants=grants, **more)


def papers(town):
    paper(town, "minutes-september", "2026-09-10 11:00", "Minutes, 7 September 2026",
          "The market drains, the school's roof, and a petition about geese.",
          "Drains: to be dug before the frost. Roof: the quote of 88 pounds was taken. Geese: heard at length, and referred to"
          " their owner.", note="The petitioner has since bought a goose. Do not seat them together.",
          path="/council/papers/2026-09")
    paper(town, "minutes-october", "2026-10-08 11:00", "Minutes, 5 October 2026",
          "The winter moorings, and a flag for dinner.",
          "Moorings: nine shillings, as before. The ferrywoman may fly a white flag at dinner, and a smaller one at tea.",
          path="/council/papers/2026-10")
    paper(town, "minutes-november", "2026-11-05 11:00", "Minutes, 2 November 2026",
          "Lamps on the quay, and the loan of the punch bowl.",
          "Lamps: twelve, from dusk to the last boat. The punch bowl: the second-best one may leave the town, the best one may"
          " not.", note="The best one is the one with the crack. Nobody need know.", path="/council/papers/2026-11",
          refs=["lamps"])
    paper(town, "fares-2027", "2026-11-17 10:00", "Fares for 2027, a proposal",
          "To keep the penny, and to ask fourpence for a clock.",
          "To be decided on 7 December. A clock takes the room of a thin person, and cannot pull.",
          path="/council/papers/fares-2027", refs=["fares"])
    paper(town, "room", "2024-09-05 09:00", "The members' room",
          "What the council keeps to itself, until it may be told.",
          "Here lie the papers on land, on people's troubles, and on presents. Members read them, the clerk writes them. A"
          " paper that has lost its reason to be private is made public by the clerk on the first of the month.",
          private=True, path="/council/room", refs=["weir-land", "hardship", "present"])
    paper(town, "weir-land", "2026-10-19 14:00", "The land by the weir",
          "An offer of 310 pounds for two acres that flood.",
          "To offer 280, to go as far as 300, and to let the seller keep the ducks.",
          note="He told the miller that he would take 290. The miller told everyone but us.", private=True,
          path="/council/room/weir-land")
    paper(town, "hardship", "2026-11-03 14:00", "The winter fund",
          "Coal for nine households, whose names stay in this room.",
          "Granted for all nine, to be left at the back doors before the lamps are lit.", private=True,
          path="/council/room/winter-fund")
    paper(town, "present", "2026-11-18 15:30", "A present for the ferrywoman",
          "Thirty years on the cable in February.",
          "A chair for the boat, made by Benedikt Ash, with the name of every tenth passenger on the underside. Not a word"
          " about it on the ferry.", note="She knows. She would like arms on it.", private=True, path="/council/room/present")
    paper(town, "barge", "2026-11-23 10:40", "Whether a barge is a house (draft)",
          "The Hopewell has a chimney, a letter box and a rose.",
          "Not decided. The clerk is looking for the law of 1822 on floating inns.", private=True, status=False)


def talk(town):
    """What is said to the news that there is no bridge. The last of it waits for the clerk."""
    town.comment("twelfth", "bridge-eleven", "2025-09-30 08:05", "Teodor Quill",
                 "Twelve is a good number for a bridge.")
    town.comment("last-boat", "bridge-eleven", "2025-09-30 08:40", "Ines Marchbank",
                 "It is also the number of the last boat. I will keep you a seat.", under="twelfth")
    town.comment("seat", "bridge-eleven", "2025-09-30 09:10", "Teodor Quill", "By the window, please.", under="last-boat")
    town.comment("pencil", "bridge-eleven", "2025-10-01 12:15", "Hester Loom",
                 "Would whoever drew the duck return the pencil? It belongs to the reading room.")
    town.comment("drawbridge", "bridge-eleven", "2026-11-27 19:30", "Hester Loom",
                 "A bridge that can be drawn up at night was never put to the vote. I only ask.", under="twelfth", status=False)


def chrome(town):
    town.listing("news", "/news", "News", types=["news"])
    town.listing("events", "/events", "What's on", types=["event"])
    town.listing("papers", "/council/papers", "Council papers", types=["paper"])
    town.listing("all", "/node", "Picked for you", promoted=True)
    town.menu("main", "Main menu", [
        link("home", "/welcome", "Home", weight=-10),
        link("town", "/about", "The town"),
        link("history", "/about/history", "History", parent="town"),
        link("bell", "/about/bell", "The late bell", parent="town"),
        link("ferry", "/ferry", "The ferry", parent="town", weight=-1),
        link("fares", "/ferry/fares", "Fares", parent="ferry"),
        link("news", "/news", "News", weight=1),
        link("events", "/events", "What's on", weight=2),
        link("library", "/library", "Library", weight=3),
        link("hours", "/library/hours", "Opening hours", parent="library"),
        link("lending", "/library/lending", "Borrowing", parent="library"),
        link("council", "/council", "Council", weight=4),
        link("members", "/council/members", "Members", parent="council"),
        link("meetings", "/council/meetings", "Meetings", parent="council"),
        link("papers", "/council/papers", "Papers", parent="council"),
        link("room", "/council/room", "Members' room", parent="council"),
        link("services", "/services", "Services", weight=5),
        link("market", "/services/market", "Market", parent="services"),
        link("waste", "/services/waste", "Ashes and rags", parent="services"),
        link("moorings", "/services/moorings", "Moorings", parent="services"),
    ])
    town.menu("small", "Small print", [
        link("contact", "/contact", "Contact"),
        link("picked", "/node", "Picked for you"),
        link("login", "/user/login", "For townspeople"),
    ])
    town.block("main_menu", "menu", "header", 0, shows="main")
    town.block("greeting", "greeting", "header", 10)
    town.block("today", "text", "aside", -10, label="Today", paths=["<front>"],
               text="The flag on the crane is white until one o'clock. The bakery has plum pie.")
    town.block("news", "listing", "aside", 0, label="Latest news", shows="news", paths=["/news"], hide=True)
    town.block("whats_on", "listing", "aside", 5, label="What's on", shows="events", paths=["<front>", "/news"])
    town.block("desk", "text", "aside", 10, label="On the clerk's desk", roles=["clerk"],
               text="Papers for the December meeting are due on Thursday noon. The key to the members' room hangs behind the"
                    " map again.")
    town.block("address", "text", "footer", 0,
               text="The Town of Hollin Ferry, Market Hall, on the left bank of the Ossel. All times are town time.")
    town.block("small_menu", "menu", "footer", 5, shows="small")
    town.block("clock", "clock", "footer", 10, label="Not the bell", age=60)
    town.block("guard", "csrf", "footer", 20, label="The value that your edits have to carry", roles=["authenticated"])
