"""Quince Hill School: three classes on a hill, with lessons, reports that families alone read, and notes of absence."""
from site_rows import Site, field, grant, link, record

# what staff may do with what belongs to a family
TEACHERS = record("staff", 1)
HEAD = record("staff", 2, update=True, delete=True)


def site():
    school = Site("quincehill.example", "Quince Hill School", "/node")
    settings(school)
    people(school)
    topics(school)
    pages(school)
    notices(school)
    lessons(school)
    reports(school)
    absences(school)
    drafts(school)
    chrome(school)
    return school


def settings(school):
    school.type("page", "Page", [field("body", "About it", teaser=True)])
    school.type("notice", "Notice", [field("body", "Please note", teaser=True)], submitted=True)
    school.type("lesson", "Lesson", [
        field("aim", "What we want to find out", teaser=True),
        field("plan", "What we do"),
        field("answers", "Answers", view="view answers", edit="edit answers"),
        field("memo", "My own memory of it", owner=True),
    ], submitted=True)
    school.type("report", "Report", [
        field("progress", "How it goes", teaser=True),
        field("next", "What comes next"),
        field("marks", "Marks", view="view marks", edit="edit marks"),
        field("memo", "My own memory of it", owner=True),
    ], submitted=True)
    school.type("absence", "Note of absence", [
        field("days", "Days", teaser=True),
        field("reason", "Why", owner=True),
    ], submitted=True)
    school.role("anonymous", "Visitor", ["access content"])
    school.role("authenticated", "Of the school", ["access content", "view own unpublished content"])
    school.role("parent", "Parent", ["create absence content", "edit own absence content", "view marks"])
    school.role("teacher", "Teacher", [
        "access user profiles", "create lesson content", "create notice content", "create report content",
        "delete own lesson content", "delete own notice content", "edit answers", "edit marks", "edit own lesson content",
        "edit own notice content", "edit own report content", "view answers", "view marks",
    ], grants=[grant("staff", 1)])
    school.role("head", "Head", [
        "access user profiles", "administer blocks", "administer menu", "administer nodes", "administer taxonomy",
        "administer users", "administer views", "create notice content", "create page content", "create url aliases",
        "delete any notice content", "edit any absence content", "edit any lesson content", "edit any notice content",
        "edit any page content", "edit any report content", "edit marks", "view answers", "view marks",
    ], grants=[grant("staff", 1), grant("staff", 2)])


def people(school):
    school.user("admin", "2025-08-18 07:30", "bell-rope-and-chalk")
    school.user("Maren Holt", "2025-08-18 08:00", "quince-jelly-9", roles=["head"])
    school.user("Idris Vane", "2025-08-20 08:00", "otters-line-up", roles=["teacher"])
    school.user("Petra Solano", "2025-08-20 08:10", "swifts-in-tune", roles=["teacher"])
    school.user("Kwame Abara", "2025-08-20 08:20", "badgers-dig-deep", roles=["teacher"])
    school.user("Lotte Winterborn", "2025-09-01 19:00", "anselm-lost-a-boot", roles=["parent"], grants=[grant("family", 1)])
    school.user("Rafi Okonjo", "2025-09-01 19:20", "twins-or-not", roles=["parent"], grants=[grant("family", 2)])
    school.user("Sunniva Dale", "2025-09-02 20:05", "signe-climbs", roles=["parent"], grants=[grant("family", 3)])
    school.user("Goro Tanaka", "2025-09-03 06:15", "soup-before-eleven")


def topics(school):
    school.term("otters", "Otters", "Five and six years old. They are learning to read, and to find both boots.")
    school.term("swifts", "Swifts", "Seven and eight. They can be heard from the valley.")
    school.term("badgers", "Badgers", "Nine to eleven. They dig until they know.")
    school.term("reading", "Reading", "Stories, letters, labels and the backs of seed packets.")
    school.term("numbers", "Numbers", "Counting, sharing, guessing well, and saying how we know.")
    school.term("nature", "Nature", "The pond, the hedge, the sky over the hill.")
    school.term("music", "Music", "Eleven violins, one tuba, and everyone's two hands.")
    school.term("making", "Making", "Wood, clay, dough and string.")
    school.term("past", "Old days", "What grandmothers know, written down while they laugh.")
    school.term("next-year", "Next year", "Plans that the staff is still turning over.", status=False)


def page(school, key, title, body, at="2025-08-25 10:00", **more):
    school.node("page", key, title, {"body": body}, at, "Maren Holt", path="/" + key, **more)


def pages(school):
    page(school, "about", "About the school",
         "Sixty-two children, four grown-ups, one cook and a quince tree share a house on the hill above Little Ansing. There"
         " are three classes and no bell: when it is time, somebody sings.")
    page(school, "day", "A day at school",
         "The gate opens at eight. Mornings are for reading and numbers, because heads are cool then. Soup is at half past"
         " eleven. Afternoons are for the pond, the workshop or the music room, and at three the hill is full of coats.")
    page(school, "classes", "The three classes",
         "Otters, Swifts and Badgers. A child moves up when the class above has asked for it, which so far has always been in"
         " September, and once on a Tuesday in March.", terms=["otters", "swifts", "badgers"])
    page(school, "people", "Who is who",
         "Maren Holt is the head, and mends the gate. Idris Vane has the Otters. Petra Solano has the Swifts and the music."
         " Kwame Abara has the Badgers and the pond. Goro Tanaka cooks, and knows everyone's second favourite soup.")
    page(school, "lunch", "Lunch",
         "Soup, bread, something green, and something to look forward to. Tell Goro what your child can't eat; what your child"
         " won't eat, your child may tell him in person.")
    page(school, "quince-tree", "The quince tree",
         "Planted in 1911 by the first class, all four of them. It flowers in May, drops fruit on hats in October, and each"
         " leaver takes a pip. Nobody may climb above the second fork, and everybody has.", terms=["nature", "past"])
    page(school, "getting-here", "Getting here",
         "On foot, by the lane from the mill: twenty minutes up and nine down. The carrier's cart takes small legs at half past"
         " seven. Horses wait by the trough, parents by the gate.")
    page(school, "books", "The book room",
         "Every book may go home for as long as it takes. The shelf by the window is for books that somebody liked enough to"
         " leave a note in. Please leave the notes.", terms=["reading"])


def notice(school, key, at, by, title, body, **more):
    school.node("notice", key, title, {"body": body}, at, by, promote=True, **more)


def notices(school):
    notice(school, "first-day", "2026-08-31 07:45", "Maren Holt", "The first day",
           "School begins on Tuesday at nine, and only on that day with cake. New Otters may bring one grown-up and one"
           " animal, of cloth.", terms=["otters"])
    notice(school, "boots", "2026-09-08 15:10", "Idris Vane", "Boots with names",
           "Eleven left boots stand in our hall, all of them green. Please write a name into each boot of your house, also into"
           " the right ones, which are surely somewhere.", terms=["otters"])
    notice(school, "pond-week", "2026-09-14 08:00", "Kwame Abara", "Pond week",
           "The Badgers count the pond from Monday to Friday. Old clothes, please, and a jar with a lid. What is counted goes"
           " back before supper.", terms=["badgers", "nature"], refs=["pond-count"])
    notice(school, "violins", "2026-09-22 14:30", "Petra Solano", "Two violins to lend",
           "The Misses Ferrow have given up playing in favour of listening. Their violins hang in the music room and would like"
           " to be taken home by two Swifts who practise.", terms=["swifts", "music"])
    notice(school, "soup-vote", "2026-09-30 11:50", "Maren Holt", "The soup of the month",
           "By 31 spoons against 24, October's soup is pumpkin with a hat. Goro asks us to say that the hat is bread.")
    notice(school, "harvest", "2026-10-07 08:05", "Maren Holt", "Quince harvest on Friday",
           "Ladders at ten, jelly at one. Each family takes home a jar and a sticky child. Rain or shine; last year it was"
           " both.", terms=["nature", "making"], refs=["quince-tree"])
    notice(school, "grandmothers", "2026-10-12 16:00", "Kwame Abara", "Wanted: grandmothers",
           "For our book of old days the Badgers look for people above seventy who remember the hill without the road. Tea is"
           " served. Grandfathers are welcome if they let others finish.", terms=["badgers", "past"], refs=["book-of-days"])
    notice(school, "lamp-walk", "2026-11-03 15:00", "Idris Vane", "The lamp walk",
           "On the eleventh at five we walk with our lamps from the trough to the mill and back. The song has three verses. The"
           " Otters know the first one very well.", terms=["otters", "music"])
    notice(school, "stove", "2026-11-09 07:20", "Maren Holt", "The stove in the Swifts' room",
           "It smokes again. Until the sweep has been, the Swifts sit with the Badgers, who have promised to be interesting.",
           terms=["swifts", "badgers"])
    notice(school, "lost-tooth", "2026-11-13 12:40", "Idris Vane", "Found: a tooth",
           "Front, upper, in good condition, in the sand by the swing. The finder would like to keep it if nobody is missing"
           " one, and has been told that somebody must be.", terms=["otters"])
    notice(school, "concert", "2026-11-19 14:00", "Petra Solano", "Winter concert",
           "On 18 December at four, in the barn at the mill. Eleven violins, the tuba, and a piece for sixty-two pairs of"
           " hands. There is straw to sit on, and it will be warm by the second piece.", terms=["music"], sticky=True)
    notice(school, "snow-rule", "2026-11-25 07:10", "Maren Holt", "If it snows",
           "If you can't see the gate from the mill, there is no school. If you can see it and not open it, come round by the"
           " kitchen.")


def lesson(school, key, at, by, title, aim, plan, terms, answers="", memo="", **more):
    fields = {"aim": aim, "plan": plan}
    if answers:
        fields["answers"] = answers
    if memo:
        fields["memo"] = memo
    school.node("lesson", key, title, fields, at, by, terms=terms, **more)


def lessons(school):
    idris, petra, kwame = "Idris Vane", "Petra Solano", "Kwame Abara"
    lesson(school, "letters-on-doors", "2026-09-03 08:00", idris, "Letters on doors",
           "How many letters can we already find by ourselves?",
           "We walk through the house and stop at every door. Who knows a letter touches it. Who knows two opens the door.",
           ["otters", "reading"], "There are 41 letters on our doors, and one is upside down (the W of WOOD).",
           "Anselm sounds out whole signs under his breath. Pretend not to notice yet.")
    lesson(school, "sharing-apples", "2026-09-10 08:00", idris, "Sharing nineteen apples",
           "What do we do when it doesn't come out even?",
           "Six plates, nineteen apples, and no knife. Then the knife. We write down each way of sharing that nobody cries at.",
           ["otters", "numbers"], "Three each and one over. The one over went to Goro in all four groups.")
    lesson(school, "seed-packets", "2026-10-01 08:00", idris, "Reading the backs of packets",
           "Can small writing tell us something that we want to know?",
           "Each pair gets a packet of seeds with the picture covered. From the words on the back they guess what it will be.",
           ["otters", "reading", "nature"], "1 radish, 2 marigold, 3 leek, 4 sweet pea, 5 an empty packet, on purpose.",
           "Number five was the great success. Use it again.")
    lesson(school, "lamp-song", "2026-10-29 08:00", idris, "The lamp song, verse one",
           "Can we keep the tune while we walk?",
           "We sing it sitting, then standing, then going round the table, then up the stairs, where it falls apart, and laugh.",
           ["otters", "music"], refs=["lamp-walk"])
    lesson(school, "long-sticks", "2026-09-04 09:00", petra, "How long is a stick that nobody can reach?",
           "Measuring a thing without touching it.",
           "A stick of one pace, its shadow, and the shadow of the flagpole. Then the barn, then Mr Abara.",
           ["swifts", "numbers"], "Flagpole 7 paces and a hand, barn 5 and a half, Mr Abara 2 less a thumb.")
    lesson(school, "rounds", "2026-09-17 09:00", petra, "A song that runs after itself",
           "What happens when we start at different times?",
           "We sing the mill song as a round in two parts, then three. In four it becomes soup; we find out who stirs.",
           ["swifts", "music"], "", "The back row drags. Put Tobi there, who counts aloud.")
    lesson(school, "hedge-map", "2026-10-08 09:00", petra, "A map of the hedge",
           "How do we draw something that is longer than the paper?",
           "Each pair draws six paces of hedge, with everything that lives in it. Then we lay all papers along the corridor.",
           ["swifts", "nature", "making"], "14 pairs and 84 paces. Two nests, one boot (left, green).", refs=["boots"])
    lesson(school, "times-of-seven", "2026-11-05 09:00", petra, "Seven, on foot",
           "Can legs remember what heads forget?",
           "We go round the trough by sevens, stamping on each seventh step and calling the number.",
           ["swifts", "numbers"], "7, 14, 21, 28, 35, 42, 49, 56, 63, 70. The trough is 63 steps round, so we meet ourselves.")
    lesson(school, "pond-count", "2026-09-15 10:00", kwame, "Counting the pond",
           "How do you count what won't hold still?",
           "Ten dips of the net at ten places; count, mark with a dot of chalk, put back; next day ten dips again. How many"
           " have dots?", ["badgers", "nature", "numbers"],
           "Monday's 60 snails with dots, Tuesday's 50 caught with 12 dots: about 250 snails.",
           "Signe asked what a snail thinks about having a dot. We need a lesson on that.")
    lesson(school, "book-of-days", "2026-10-13 10:00", kwame, "The book of old days",
           "How do we ask so that people tell?",
           "In pairs: one asks, one writes. No question that can be answered by yes. We begin with: what did it smell of?",
           ["badgers", "past", "reading"], "", "Old Mrs Fenn talked for two hours about the smell of the carrier's cart.",
           refs=["grandmothers"])
    lesson(school, "levers", "2026-10-20 10:00", kwame, "Lifting Mr Abara",
           "How can a small person lift a large one?",
           "A plank, a log, and me. Move the log a foot at a time, and write down who lifts me from where.",
           ["badgers", "making", "numbers"], "With the log two feet from me and eight from the end, Ife lifts me with one hand.")
    lesson(school, "bread-time", "2026-11-10 10:00", kwame, "What the dough does while we aren't looking",
           "Does warm dough rise faster, and how much?",
           "Four bowls: sill, stove, cellar, lap. Mark the height each quarter of an hour. Draw all four lines on one paper.",
           ["badgers", "making", "nature"], "Doubled: stove 40 minutes, lap 55, sill 90, cellar by the next morning.")
    lesson(school, "old-prices", "2026-11-17 10:00", kwame, "A shopping list of 1911",
           "What could the first class buy for a shilling?",
           "We have the ledger of the mill shop. Plan a picnic for four children and a teacher, and don't go into debt.",
           ["badgers", "past", "numbers"], "Cheapest picnic that anybody would eat: ninepence three farthings.",
           refs=["quince-tree"])


def report(school, key, at, by, family, title, progress, coming, marks, memo="", terms=()):
    fields = {"marks": marks, "next": coming, "progress": progress}
    if memo:
        fields["memo"] = memo
    school.node("report", key, title, fields, at, by, terms=terms, grants=[record("family", family), TEACHERS, HEAD])


def reports(school):
    idris, petra, kwame = "Idris Vane", "Petra Solano", "Kwame Abara"
    report(school, "anselm-spring", "2026-04-17 16:00", idris, 1, "Anselm Winterborn, spring",
           "Anselm listens with his whole face. He counts to forty, and after that with enthusiasm.",
           "Letters. He knows nine and trusts six of them.", "Reading: begun. Numbers: well on the way. Boots: one.",
           "Sits best beside the window that doesn't open.", ["otters"])
    report(school, "anselm-autumn", "2026-11-20 16:00", idris, 1, "Anselm Winterborn, autumn",
           "Anselm reads. It happened in October, over a seed packet, and he hasn't stopped since.",
           "Longer books, and looking up from them on stairs.", "Reading: very good. Numbers: good. Boots: two.",
           "Ask Petra whether he may sit in with the Swifts on Thursdays.", ["otters"])
    report(school, "tobi-spring", "2026-04-17 16:20", petra, 2, "Tobi Okonjo, spring",
           "Tobi hears a wrong note from the far side of the barn, and says so to whoever played it.",
           "Saying so afterwards.", "Reading: good. Numbers: good. Music: remarkable.", "", ["swifts"])
    report(school, "tobi-autumn", "2026-11-20 16:20", petra, 2, "Tobi Okonjo, autumn",
           "Tobi now leads the second part of the round, and waits for the others at the corner.",
           "Writing as clearly as he counts.", "Reading: good. Numbers: very good. Music: remarkable.",
           "He could have the second Ferrow violin.", ["swifts"])
    report(school, "ife-spring", "2026-04-17 16:40", kwame, 2, "Ife Okonjo, spring",
           "Ife builds what others describe. The bridge over the ditch is hers, and holds Goro.",
           "Describing what she builds.", "Reading: fair. Numbers: very good. Making: excellent.", "", ["badgers"])
    report(school, "ife-autumn", "2026-11-20 16:40", kwame, 2, "Ife Okonjo, autumn",
           "Ife wrote four pages on levers with three spelling mistakes, two of them in my name.",
           "A machine of her choice, with a drawing first.", "Reading: good. Numbers: very good. Making: excellent.",
           "The drawing first. Insist.", ["badgers"])
    report(school, "signe-spring", "2026-04-17 17:00", kwame, 3, "Signe Dale, spring",
           "Signe asks the second question, the one that comes after the answer.",
           "Coming down from the tree when called.", "Reading: excellent. Numbers: good. Nature: excellent.", "", ["badgers"])
    report(school, "signe-autumn", "2026-11-20 17:00", kwame, 3, "Signe Dale, autumn",
           "Signe runs the pond book, and has taught two Otters to keep a straight margin.",
           "The town school is the year after next; let us talk about it early.",
           "Reading: excellent. Numbers: very good. Nature: excellent.", "She'll want to take the snails.", ["badgers"])


def absence(school, key, at, by, family, title, days, reason, terms):
    school.node("absence", key, title, {"days": days, "reason": reason}, at, by, terms=terms,
                grants=[record("family", family), TEACHERS, HEAD])


def absences(school):
    absence(school, "anselm-cough", "2026-09-21 07:05", "Lotte Winterborn", 1, "Anselm stays at home",
            "21 and 22 September", "A cough like a goose. He is very proud of it.", ["otters"])
    absence(school, "okonjo-wedding", "2026-10-05 20:30", "Rafi Okonjo", 2, "Ife and Tobi are away",
            "Friday, 9 October", "Their aunt marries a beekeeper, and Ife has built the arch. They'll miss the quinces, and"
            " know it.", ["swifts", "badgers"])
    absence(school, "signe-dentist", "2026-11-16 06:50", "Sunniva Dale", 3, "Signe comes after lunch",
            "Monday, 16 November, until noon", "The dentist in Great Ansing. Please don't ask her in front of the others.",
            ["badgers"])
    absence(school, "anselm-boot", "2026-11-24 07:30", "Lotte Winterborn", 1, "Anselm will be late",
            "Tuesday, 24 November", "The other boot.", ["otters"])


def drafts(school):
    school.node("notice", "theatre", "A theatre in the barn? (draft)", {
        "body": "If the miller agrees, the Swifts would play the tale of the hen who was elected mayor. We need a hen, nine"
                " voters and a coat with medals.",
    }, "2026-11-22 20:10", "Petra Solano", terms=["swifts", "next-year"], status=False)
    school.node("lesson", "snail-thoughts", "What does a snail think of its dot? (draft)", {
        "aim": "What can we know about somebody who can't tell us?",
        "memo": "Begin with Signe's question. Don't end with an answer.",
        "plan": "Two boxes, leaf left and leaf right. Do dotted snails choose otherwise than plain ones? What would we have"
                " learnt?",
    }, "2026-11-21 21:00", "Kwame Abara", terms=["badgers", "nature"], status=False)
    school.node("notice", "roof", "The roof and the money for it (draft)", {
        "body": "For the governors first: the town gives 88 pounds, and the jelly gave eleven. Three are wanting.",
    }, "2026-11-23 18:45", "Maren Holt", grants=[HEAD], status=False)
    school.node("page", "garden", "The new garden (draft)", {
        "body": "Where the old pump stood there will be twelve beds, one for each month, so that there is always something to"
                " weed.",
    }, "2026-11-23 19:10", "Maren Holt", path="/garden", terms=["nature", "next-year"], status=False)


def chrome(school):
    school.listing("today", "/node", "Today on the hill", promoted=True)
    school.listing("notices", "/notices", "Notices", types=["notice"])
    school.listing("lessons", "/lessons", "Lessons", types=["lesson"])
    school.listing("reports", "/reports", "Reports", types=["report"])
    school.listing("absences", "/absences", "Who is away", types=["absence"])
    school.listing("pond", "/classes/badgers/lessons", "Lessons of the Badgers", types=["lesson"], term="badgers")
    school.menu("main", "Main menu", [
        link("home", "/node", "Today", weight=-10),
        link("about", "/about", "The school"),
        link("day", "/day", "A day", parent="about"),
        link("people", "/people", "Who is who", parent="about"),
        link("lunch", "/lunch", "Lunch", parent="about"),
        link("tree", "/quince-tree", "The quince tree", parent="about"),
        link("way", "/getting-here", "Getting here", parent="about"),
        link("classes", "/classes", "Classes", weight=1),
        link("otters", "/taxonomy/term/1", "Otters", parent="classes"),
        link("swifts", "/taxonomy/term/2", "Swifts", parent="classes"),
        link("badgers", "/taxonomy/term/3", "Badgers", parent="classes"),
        link("badger_lessons", "/classes/badgers/lessons", "Their lessons", parent="badgers"),
        link("lessons", "/lessons", "Lessons", weight=2),
        link("notices", "/notices", "Notices", weight=3),
        link("books", "/books", "Book room", weight=4),
        link("garden", "/garden", "The new garden", weight=5),
    ])
    school.menu("family", "For families", [
        link("reports", "/reports", "Reports"),
        link("absences", "/absences", "Who is away"),
    ])
    school.block("main_menu", "menu", "header", 0, shows="main")
    school.block("greeting", "greeting", "header", 10)
    school.block("song", "text", "aside", -10, label="The song for going in", paths=["<front>"],
                 text="Coat on the hook and care on the sill, / three times three are on the hill.")
    school.block("families", "menu", "aside", 0, label="For families", shows="family", roles=["parent", "teacher", "head"])
    school.block("notices", "listing", "aside", 5, label="Notices", shows="notices", paths=["/notices", "/node", "/"], hide=True)
    school.block("staff", "text", "aside", 10, label="Staff room", roles=["teacher", "head"],
                 text="The kettle has been mended. Reports go out on Friday; please count the boots first.")
    school.block("address", "text", "footer", 0,
                 text="Quince Hill School, above the mill at Little Ansing. Shout up, we come down.")
    school.block("guard", "csrf", "footer", 20, label="The value that your edits have to carry", roles=["authenticated"])
