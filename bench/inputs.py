"""inputs.py: the inputs of bench/collect.py, from fixed seeds: recipes made like examples/rye in several sizes and scripts,
many names, and worst cases. `python3 bench/inputs.py DIRECTORY` writes them there, each in a folder with the four files."""
import os
import random
import sys

LATIN = {
    "title": "Sunday dinner for the whole family", "source": "a cook in Franconia", "servings": "6 plates",
    "sections": "Dough|Filling|Sauce|Broth|Salad|Baking|Dessert|To serve".split("|"),
    "foods": "rye flour:g|wheat flour:g|butter:g|warm water:ml|salt:tsp|sugar:g|eggs:|onion:|olive oil:tbsp|black pepper:tsp|carrots:g|"
             "potatoes:kg|milk:ml|cream:ml|parsley:|garlic clove:|tomatoes:g|vegetable stock:l|white wine:ml|lemon juice:tbsp|"
             "bay leaf:|thyme:tsp|smoked bacon:g|mushrooms:g|celery stalk:|caraway:tsp|vinegar:tbsp|mustard:tsp|honey:tbsp|"
             "walnuts:g|apples:kg|cinnamon:tsp|yeast:g|cheese:g|rice:g|beans:g|spinach:g|nutmeg:|chives:|ginger:g".split("|"),
    "notes": "finely chopped|fed the evening before|type 1150|room temperature|peeled and diced|sieved".split("|"),
    "pots": "large bowl|wooden spoon|frying pan|saucepan|baking stone|whisk|proofing basket|small knife|sieve|oven".split("|"),
    "timers": "ripening|final proof|simmering|resting|baking".split("|"),
    "words": "stir|fold|mix|the|and|with|until|golden|soft|slowly|over|medium|heat|then|add|to|it|in|a|cover|leave|smooth|keep|warm|"
             "place|dry|well|again|half|of|for|before|serving".split("|"),
    "blank": " ", "stop": ". ", "minutes": "min", "hours": "h", "units": "g kg ml l tsp tbsp min h °C".split(),
}
CYRILLIC = {
    "title": "Воскресный обед для всей семьи", "source": "повар из Пскова", "servings": "шесть порций",
    "sections": "Тесто|Начинка|Соус|Бульон|Салат|Выпечка|Сладкое|Подача".split("|"),
    "foods": "ржаная мука:г|пшеничная мука:г|сливочное масло:г|тёплая вода:мл|соль:г|сахар:г|яйца:|репчатый лук:|морковь:г|"
             "картофель:кг|молоко:мл|сметана:мл|петрушка:|чеснок:|помидоры:г|овощной бульон:л|лавровый лист:|грибы:г|укроп:|"
             "уксус:мл|мёд:г|грецкие орехи:г|яблоки:кг|корица:г|дрожжи:г|сыр:г|гречка:г|фасоль:г|капуста:кг|свёкла:кг".split("|"),
    "notes": "мелко нарезать|комнатной температуры|просеять|очистить и нарезать".split("|"),
    "pots": "большая миска|деревянная ложка|сковорода|кастрюля|венчик|духовка|нож|сито".split("|"),
    "timers": "подъём|варка|отдых|выпечка".split("|"),
    "words": "взбейте|добавьте|смешайте|затем|медленно|на|среднем|огне|до|готовности|и|с|в|накройте|оставьте|тёплом|месте|снова".split("|"),
    "blank": " ", "stop": ". ", "minutes": "мин", "hours": "ч", "units": "г кг мл л мин ч".split(),
}
CJK = {
    "title": "星期日的家常菜", "source": "成都的廚師", "servings": "六人份",
    "sections": "麵團|餡料|醬汁|高湯|涼菜|烘焙|甜品|上桌".split("|"),
    "foods": "麵粉:克|白米:克|溫水:毫升|鹽:克|白糖:克|雞蛋:|洋蔥:|紅蘿蔔:克|馬鈴薯:克|牛奶:毫升|豆腐:克|大蒜:|番茄:克|醬油:毫升|"
             "料理酒:毫升|米醋:毫升|芝麻油:毫升|生薑:克|香菇:克|豬肉:克|花椒:克|辣椒:|青蔥:|菠菜:克|花生:克|蜂蜜:克".split("|"),
    "notes": "切碎|室溫|過篩|去皮切塊".split("|"),
    "pots": "大碗|木勺|炒鍋|砂鍋|打蛋器|烤箱|菜刀|蒸籠".split("|"),
    "timers": "發酵|煮沸|靜置|烘烤".split("|"),
    "words": "加入|攪拌|均勻|然後|慢慢|中火|直到|變軟|金黃|蓋上|放在|溫暖|的地方|再次|一半|上桌前".split("|"),
    "blank": "", "stop": "。", "minutes": "分鐘", "hours": "小時", "units": "克 毫升 分鐘 小時".split(),
}
KINDS = {u: k for k, us in {
    "mass": "g kg г кг 克", "volume": "ml l tsp tbsp мл л 毫升", "time": "min h мин ч 分鐘 小時", "temperature": "°C"}.items() for u in us.split()}


def units_of(names):
    return "".join("%s\t%s\n" % (u, KINDS[u]) for u in names)


class Recipe:
    """A recipe's text, written along with its events; spans are in bytes."""

    def __init__(self, words, seed):
        self.w, self.rng, self.text, self.lines, self.seen = words, random.Random(seed), b"", [], set()

    def put(self, s):
        a = len(self.text)
        self.text += s.encode()
        return "%d\t%d" % (a, len(self.text))

    def put_text(self, s):
        return self.put(s) + "\t" + s

    def line(self, *fields):
        self.lines.append("\t".join(fields))

    def meta(self, key, value):
        self.put(">>")
        k = self.put_text(" " + key)
        self.put(":")
        self.line("meta", k, self.put_text(" " + value))
        self.put("\n")

    def amount(self, value, unit):
        a = len(self.text)
        v = self.put_text(value)
        u = "-"
        if unit:
            self.put("%")
            u = self.put_text(unit)
        return "%d\t%d\t%s\t%s\t-\t%s" % (a, len(self.text), "r" if "-" in value else "n", v, u)

    def component(self, word, name, value=None, unit=None, note=None, modifiers="", alias=None, intermediate=None):
        a = len(self.text)
        self.put("@" if word == "ingredient" else "#")
        m = self.put(modifiers)
        tail = ""
        if word == "ingredient":
            tail = "\t-"
            if intermediate:
                kind, n = intermediate
                tail = "\tr\t%s\t%d\t%s" % (kind, n, self.put("(%s~%d)" % ("=" if kind == "section" else "", n)))
        n = self.put_text(name)
        al = "-"
        if alias:
            self.put("|")
            al = self.put_text(alias)
        self.put("{")
        q = self.amount(value, unit) if value else "-"
        self.put("}")
        no = "-"
        if note:
            self.put("(")
            no = self.put_text(note)
            self.put(")")
        self.line(word, "%d\t%d" % (a, len(self.text)), n, al, q, no, modifiers or ".", m + tail)

    def timer(self):
        a = len(self.text)
        self.put("~")
        name = self.put_text(self.rng.choice(self.w["timers"])) if self.rng.random() < 0.5 else "-"
        self.put("{")
        value = self.rng.choice(["10", "20", "30", "45", "60-75"])
        q = self.amount(value, self.w[self.rng.choice(["minutes", "minutes", "hours"])])
        self.put("}")
        self.line("timer", "%d\t%d" % (a, len(self.text)), name, q)

    def prose(self, most):
        s = self.w["blank"].join(self.rng.choice(self.w["words"]) for _ in range(self.rng.randint(1, most)))
        if self.rng.random() < 0.1:
            s += " %d %s" % (self.rng.choice([50, 180, 250]), self.rng.choice(self.w["units"]))
        return s

    def words(self, most, end=None):
        self.line("text", self.put_text(" " + self.prose(most) + (end or " ")))

    def ingredient(self):
        name, unit = self.rng.choice(self.w["foods"]).split(":")
        known = name in self.seen
        self.seen.add(name)
        note = self.rng.choice(self.w["notes"]) if not known and self.rng.random() < 0.4 else None
        value = self.rng.choice(["1", "2", "50", "1/2", "250", "100-150"]) if unit and self.rng.random() < 0.7 else None
        modifiers = "&" if known and self.rng.random() < 0.03 else ""
        alias = name.split()[-1] if not known and self.rng.random() < 0.1 else None
        if self.rng.random() < 0.3:
            name = name[:1].upper() + name[1:]
        self.component("ingredient", name, value, unit if value else None, note, modifiers, alias)

    def step(self, number):
        self.line("start", "step")
        self.words(3)
        if number > 1 and self.rng.random() < 0.3:
            self.component("ingredient", self.rng.choice(self.w["sections"]), modifiers="&", intermediate=("step", 1))
            self.words(2)
        for _ in range(self.rng.randint(1, 4)):
            self.ingredient()
            self.words(4)
        if self.rng.random() < 0.6:
            self.component("cookware", self.rng.choice(self.w["pots"]))
            self.words(5)
        if self.rng.random() < 0.5:
            self.timer()
        self.words(10, self.w["stop"])
        self.line("end", "step")
        self.put("\n\n")

    def note(self):
        self.line("start", "text")
        self.put("> ")
        self.line("text", self.put_text(self.prose(20) + self.w["stop"]))
        self.line("end", "text")
        self.put("\n\n")

    def section(self, name):
        self.put("=")
        self.line("section", self.put_text(" " + name))
        self.put("\n\n")


def realistic(words, size, seeds=40):
    """A recipe of at most this size of sheet: of those of the first seeds the largest."""
    return max((recipe(words, size, seed) for seed in range(seeds)), key=lambda r: len(r[0].encode()))


def recipe(words, size, seed):
    r = Recipe(words, seed)
    for key, value in (("title", words["title"]), ("source", words["source"]), ("servings", words["servings"]), ("[duplicate]", "reference")):
        r.meta(key, value)
    length, text, fits = 0, b"", 0
    while True:
        r.section(r.rng.choice(words["sections"]))
        for number in range(1, r.rng.randint(3, 6)):
            if r.rng.random() < 0.15:
                r.note()
            r.step(number)
            length += sum(len(line.encode()) + 1 for line in r.lines[fits:])
            if length > size:
                return "".join(line + "\n" for line in r.lines[:fits]), text, units_of(words["units"])
            text, fits = r.text, len(r.lines)


def in_step(lines):
    return "start\tstep\n" + "".join(line + "\n" for line in lines) + "end\tstep\n"


LETTERS = "abcdefghijklmnopqrstuvwxyzABCDEFGHIJKLMNOPQRSTUVWXYZ0123456789-_"


def names_sheet(names):
    """Each name is looked for among all before it."""
    mode = "meta\t0\t1\t[duplicate]\t0\t1\treference\n"
    return mode + in_step("ingredient\t0\t1\t0\t1\t%s\t-\t-\t-\t.\t0\t0\t-" % n for n in names), b"@", ""


def different_names(seed):
    """Names of 30 letters that part at once, or within a few letters."""
    rng = random.Random(seed)
    return names_sheet("".join(rng.choice(LETTERS[:26]) for _ in range(30)) for _ in range(512))


def alike_names():
    """Names of 30 letters that part in their last two."""
    return names_sheet("a" * 28 + LETTERS[i // 26] + LETTERS[i % 26] for i in range(512))


def metadata():
    """As many lines with different keys as 65,536 bytes hold."""
    keys = list(LETTERS) + [a + b for a in LETTERS for b in LETTERS]
    out = ""
    for k in keys:
        line = "meta\t0\t0\t%s\t0\t0\t\n" % k
        if len(out) + len(line) > 65536:
            break
        out += line
    return out, b"", ""


def text_mode():
    """Fifteen components in text mode, each of which repeats the whole text."""
    text = b"Mix @wheat flour{250%g} with @water{150%ml} in a #large bowl{}.\n" * 1000
    return "meta\t0\t1\t[mode]\t1\t2\ttext\n" + in_step(["timer\t0\t%d\t-\t-" % len(text)] * 15), text, ""


def full_list():
    """1,024 units, as many as there may be, whose names part in their last two letters; every second is one of time."""
    names = ["unitname" + LETTERS[i // 32] + LETTERS[i % 32] for i in range(1024)]
    return names, "".join("%s\t%s\n" % (n, "time" if i % 2 else "mass") for i, n in enumerate(names))


def amounts(n, units):
    """So many ingredients of one name, all but the first references, whose units alternate: each is compared with all before it."""
    line = "ingredient\t0\t1\t0\t1\tsalt\t-\t0\t1\tn\t0\t1\t1\t-\t0\t1\t%s\t-\t%s\t0\t0\t-"
    return [line % (units[i % len(units)], "&" if i else ".") for i in range(n)]


def many_units():
    """200 timers, 300 inline quantities and 20 references whose units stand at the list's end."""
    names, units = full_list()
    late = names[-127::2]
    timer = ["timer\t0\t1\t-\t0\t1\tn\t0\t1\t1\t-\t0\t1\t%s" % late[i % 64] for i in range(200)]
    inline = ["text\t0\t1\t5 %s, " % late[i % 64] for i in range(300)]
    return in_step(timer + amounts(20, late[-2:]) + inline), b"@", units


def no_units():
    """A text with 4,000 numbers, each before a unit that is not in the list."""
    return in_step(["text\t0\t1\t" + "1 a, " * 4000]), b"@", full_list()[1]


def many_pairs():
    """512 amounts of one ingredient in two units at the list's end: 65,000 pairs of different units."""
    names, units = full_list()
    return in_step(amounts(512, names[-3::2])), b"@", units


def different_pairs():
    """512 amounts of one ingredient, each in a unit of its own: 130,816 pairs of different units."""
    names, units = full_list()
    return in_step(amounts(512, names[1::2])), b"@", units


def many_mentions():
    """One ingredient, mentioned again and again without an amount."""
    line = "ingredient\t0\t1\t0\t1\t%s\t-\t-\t-\t%s\t0\t0\t-"
    return in_step([line % ("salt", ".")] + [line % ("Salt", "&")] * 511), b"@", ""


def many_pieces():
    """Cookware that nothing refers to, in the mode in which the Rust begins."""
    return in_step("cookware\t0\t1\t0\t1\tbowl%03d\t-\t-\t-\t.\t0\t0" % i for i in range(256)), b"@", ""


def many_texts():
    return in_step(["text\t0\t0\tabc"] * 4000), b"@", ""


def long_pair(name, other):
    """A name and a reference to it."""
    line = "ingredient\t0\t1\t0\t1\t%s\t-\t-\t-\t%s\t0\t0\t-"
    return in_step([line % (name, "."), line % (other, "&")]), b"@", ""


def one_text(text, units):
    return in_step(["text\t0\t0\t" + text]), b"@", units


def inputs():
    """Name, sheet, text, units; the flags are 7."""
    yield "empty sheet", "", b"", ""
    for kb in (1, 4, 16, 64):
        yield ("recipe, %d KB" % kb,) + realistic(LATIN, kb * 1024)
    yield ("recipe in Cyrillic, 16 KB",) + realistic(CYRILLIC, 16384)
    yield ("recipe in CJK, 16 KB",) + realistic(CJK, 16384)
    yield ("512 names",) + different_names(7)
    yield ("512 names alike",) + alike_names()
    yield ("different metadata keys",) + metadata()
    yield ("text mode, 15 times the text",) + text_mode()
    yield ("1,024 units, 800 looked up",) + many_units()
    yield ("1,024 units, 4,000 numbers without one",) + no_units()
    yield ("1,024 units, 512 amounts of one ingredient",) + many_pairs()
    yield ("1,024 units, 512 amounts in as many of them",) + different_pairs()
    yield ("512 mentions of one ingredient",) + many_mentions()
    yield ("256 pieces of cookware",) + many_pieces()
    yield ("4,000 texts",) + many_texts()
    yield ("a text of 60 KB",) + one_text("abc def ghi. " * 4600, "g\tmass\n")
    yield ("two names of 30 KB",) + long_pair("ab" * 15000, "AB" * 15000)


def further():
    """Inputs that no recipe comes near, each made to be slow."""
    units = full_list()[1]
    unitless = [line.replace("0\t1\tx\t-\t", "-\t-\t") for line in amounts(512, ["x"])]
    yield "512 amounts without a unit", in_step(unitless), b"@", units
    yield "512 amounts in a unit that is not in the list", in_step(amounts(512, ["foo"])), b"@", units
    yield "the same, written in two ways", in_step(amounts(512, ["fo\\\\o", " fo\\\\o"])), b"@", units
    yield ("two names of 15,000 Cyrillic letters",) + long_pair("аб" * 7500, "АБ" * 7500)
    yield ("two names of 15,000 Greek letters",) + long_pair("αβ" * 7500, "ΑΒ" * 7500)
    yield ("two names of 10,000 Vietnamese letters",) + long_pair("ạả" * 5000, "ẠẢ" * 5000)
    yield ("two names of 10,000 CJK characters",) + long_pair("麵粉" * 5000, "麵粉" * 5000)
    yield ("two names of 10,000 full stops",) + long_pair("。" * 10000, "。" * 10000)
    yield ("two names with 12,000 blanks",) + long_pair("a  b " * 6000, "A  B " * 6000)
    yield ("15,000 times ß beside ss",) + long_pair("ß" * 15000, "ss" * 15000)
    yield ("a text of 60 KB in CJK",) + one_text("麵粉" * 10000, "")
    yield ("the same with 4,300 numbers, one word",) + one_text("5克的麵粉" * 4300, "克\tmass\n")
    yield ("3,600 numbers and full stops, one word",) + one_text("5克的麵粉。" * 3600, "克\tmass\n")
    yield ("3,400 numbers and full stops, words",) + one_text("5克的麵粉。 " * 3400, "克\tmass\n")
    yield ("2,000 numbers before words of 9 characters",) + one_text("5克的麵粉一杯糖。 " * 2000, units)
    sheet, text, none = one_text("。" * 20000, "")
    yield "a text of 20,000 full stops in components mode", "meta\t0\t1\t[mode]\t0\t1\tcomponents\n" + sheet, text, none
    yield ("a text of 24,000 escapes",) + one_text("a\\n\\\\" * 12000, "")
    yield ("a text of 24,000 carriage returns",) + one_text("\\r" * 24000, "")
    yield ("a text of 15,000 numbers",) + one_text("1.5 " * 15000, "g\tmass\n")
    yield "3,600 times one metadata key", "meta\t0\t0\tk\t0\t0\tv\n" * 3600, b"", ""
    yield "a metadata value of 60 KB", "meta\t0\t0\tk\t0\t0\t" + "v w " * 15000 + "\n", b"", ""
    yield "4,000 errors", "error\t1\n" * 4000, b"", ""


def write(directory, which):
    """Writes these; gives the names with their folders and sizes of the sheet."""
    out = []
    for i, (name, sheet, text, units) in enumerate(which):
        d = os.path.join(directory, "%02d" % i)
        os.makedirs(d)
        for file, content in (("events.tsv", sheet.encode()), ("recipe.cook", text), ("units.tsv", units.encode()), ("flags", b"7")):
            with open(os.path.join(d, file), "wb") as f:
                f.write(content)
        assert len(sheet.encode()) <= 65536 and len(text) <= 65535 and len(units.encode()) <= 16384, name
        out.append((name, d, len(sheet.encode())))
    return out


if __name__ == "__main__":
    for row in write(sys.argv[1], list(inputs())):
        print(*row, sep="\t")
