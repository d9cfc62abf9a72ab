"""The places of a crate's code that tools/changes may change, and what may stand there in their stead."""
import re

COMPARISONS = ("<", "<=", ">", ">=", "==", "!=")
ARITHMETIC = ("+", "-", "*", "/", "%", "&", "|", "^", "<<", ">>")
OTHER_OPERATORS = {"+=": ("-=",), "-=": ("+=",), "&&": ("||",), "||": ("&&",)}
KEYWORDS = set("let mut if else while loop for in return as match true false fn pub const struct impl mod use self break continue".split())
TYPES = set("u8 u16 u32 u64 usize i8 i16 i32 i64 isize bool".split())

TOKEN = re.compile(
    r"(?P<text>b\"(?:[^\"\\]|\\.)*\")"
    r"|(?P<octet>b'(?:[^'\\]|\\.)')"
    r"|(?P<refusal>Refusal::(?P<which>[A-Z][a-z]+))"
    r"|(?P<number>\b(?:0x[0-9A-Fa-f_]+|[0-9][0-9_]*)(?P<suffix>u8|u16|u32|u64|usize)?\b)"
    r"|(?P<word>[A-Za-z_][A-Za-z0-9_]*)"
    r"|(?P<sign>\.\.=?|=>|->|::|<<|>>|<=|>=|==|!=|&&|\|\||\+=|-=|[-+*/%&|^<>!])"
)


class Place:
    """A place in a file, and the words that may stand there in its stead."""

    def __init__(self, crate, file, start, end, kind, others, constant):
        self.crate, self.file, self.start, self.end = crate, file, start, end
        self.kind, self.others, self.constant = kind, others, constant


def without_comments(source):
    """The source with each comment blanked, so that places keep their numbers."""
    return re.sub(r"//[^\n]*", lambda found: " " * len(found.group()), source)


def stretches(code, results):
    """The stretches of code: (start, end, constant?, types), where types has the names whose type can be seen. A body begins at a line with its brace
    alone, after the contract."""
    for found in re.finditer(r"^( *)(?:pub(?:\(crate\))? )?fn \w+\(([^{]*?)\)", code, re.M):
        begin = re.compile(r"^%s\{\n" % found.group(1), re.M).search(code, found.end())
        if begin:
            end = re.compile(r"^%s\}$" % found.group(1), re.M).search(code, begin.end())
            types = dict(re.findall(r"(\w+): ([^,\n]+)", found.group(2)))
            for name, kind, value in re.findall(r"let (?:mut )?(\w+)(?:: ([^=]+?))? = ([^;]*);", code[begin.end() : end.start()]):
                called = re.match(r"(?:\w+::)*(\w+)\(", value)
                made = re.match(r"(?:\w+::)*([A-Z]\w*) \{", value)
                cast = re.search(r" as (\w+)$", value)
                types[name] = kind or (made and made.group(1)) or (cast and cast.group(1)) or (called and results.get(called.group(1))) or "number"
            yield begin.end(), end.start(), False, types
    for found in re.finditer(r"^ *(?:pub )?const \w+: [^=]*=", code, re.M):
        yield found.end(), code.index(";", found.end() if "[" not in found.group() else code.index("]", found.end())), True, {}


def other_numbers(token, suffix):
    """A number's neighbours, twice it, and 0."""
    digits = token[: len(token) - len(suffix)]
    value = int(digits.replace("_", ""), 0)
    wanted = {value + 1, value * 2, 0} | ({value - 1} if value else set())
    form = (lambda n: "0x%X" % n) if digits.startswith("0x") else str
    return [form(n) + suffix for n in sorted(wanted - {value})]


def places_of(crate, file, refusal_names, results, chance):
    """The places of a file. `results` has what a function of a name gives back, and chance says which entry of a table is taken."""
    source = file.read_text()
    code = without_comments(source)
    found = []
    constants = re.findall(r"const ([A-Z][A-Z0-9_]*):", code)
    for start, end, constant, types in stretches(code, results):
        tokens = [t for t in TOKEN.finditer(code, start, end)]
        names = {"call": set(), "field": set(), "variable": set(types), "constant": set(constants)}
        uses = []
        for k, token in enumerate(tokens):
            before = code[:token.start()].rstrip()[-2:]
            after = code[token.end() :].lstrip()[:2]
            word = token.group("word")
            if word:
                declared = k > 0 and (tokens[k - 1].group() == "let" or tokens[k - 1].group() == "mut" and tokens[k - 2].group() == "let")
                if word in KEYWORDS:
                    if word in ("true", "false"):
                        found.append(Place(crate, file, token.start(), token.end(), "literal", ["false" if word == "true" else "true"], constant))
                    continue
                if word in TYPES or after == "::" or (after[:1] == ":" and after != "::") or word[0].isupper() and not word.isupper():
                    continue
                if before.endswith("."):
                    role = "method" if after[:1] == "(" else "field"
                elif after[:1] == "(":
                    role = "call"
                elif word.isupper():
                    role = "constant"
                else:
                    role = "variable"
                if role == "method" or before == "::" and role != "call" and role != "constant":
                    continue
                if before != "::":
                    names[role].add(word)
                    if not declared:
                        uses.append((token, role, word))
            elif token.group("refusal"):
                others = ["Refusal::" + name for name in refusal_names if name != token.group("which")]
                found.append(Place(crate, file, token.start(), token.end(), "refusal", others, constant))
            elif token.group("number"):
                found.append(Place(crate, file, token.start(), token.end(), "literal", other_numbers(token.group(), token.group("suffix") or ""), constant))
            elif token.group("octet"):
                octet = token.group()[2:-1]
                if len(octet) == 1 and octet.isalnum():
                    found.append(Place(crate, file, token.start(), token.end(), "literal", ["b'%s'" % chr(ord(octet) + 1)], constant))
            elif token.group("sign"):
                sign = token.group()
                binary = re.match(r"[\w)\]]", before[-1:] or " ") and before not in ("as",) and not re.search(r"\b(return|in|let|=)$", code[:token.start()].rstrip())
                if sign == "!":
                    found.append(Place(crate, file, token.start(), token.end(), "operator", [""], constant))
                elif sign in OTHER_OPERATORS:
                    found.append(Place(crate, file, token.start(), token.end(), "operator", list(OTHER_OPERATORS[sign]), constant))
                elif binary and sign in COMPARISONS:
                    found.append(Place(crate, file, token.start(), token.end(), "comparison", [s for s in COMPARISONS if s != sign], constant))
                elif binary and sign in ARITHMETIC:
                    found.append(Place(crate, file, token.start(), token.end(), "operator", [s for s in ARITHMETIC if s != sign], constant))
        for token, role, word in uses:
            others = sorted(names[role] - {word})
            if role == "variable" and word in types:
                # a name of the same type, as far as that can be seen
                others = [name for name in others if types.get(name) == types[word]]
            elif role == "call" and word in results:
                others = [name for name in others if results.get(name) == results[word]]
            if others:
                found.append(Place(crate, file, token.start(), token.end(), "name", others, constant))
        if constant and len(tokens) > 16:
            # a table
            entries = [p for p in found if start <= p.start < end]
            found = [p for p in found if not start <= p.start < end] + [chance.choice(entries)]
    return found
