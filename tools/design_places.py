"""Counts the places of the design pass in crates/*/src, point by point.

usage: python3 tools/design_places.py [-l] [COMMIT]

With no commit it reads the working tree; -l lists each place with its line.
"""
import re
import subprocess
import sys

# Of each point: what is looked for, as patterns over whole files. Where "twins" stands, a pattern
# counts only if it is found twice or more.
POINTS = [
    ("1", "an Option or Result opened by hand to give an error, none or a flag", "",
     [r"let (?:Some|Ok)\([^\n]*\) = [^\n]* else \{\n\s*return (?:Err\(|None|false)",
      r"^ *None => (?:None|false|true|Err\([^\n]*)[,\n]", r"^ *Err\(\w+\) => (?:Ok\()?Outcome::Refused",
      r"^ *Err\(_\) => 0,", r"^ *match self\.map \{\n *None => Err"]),
    ("1", "a variant that is a refusal or no answer, beside answers", "", [r"^ *Refused\(Refused\),\n *Passed", r"^ *(?:NotChecked|RefusedBy\(u8\)),"]),
    ("1", "a number that stands for none", "", [r"^(?:pub )?const NO_\w+: u(?:16|32)"]),
    ("1", "a number for each variant, by a match", "", [r"fn (?:number|kind)\(self\) -> u8\n[^\n]*(?:\n[^\n]*ensures[^\n]*)?\n    \{\n(?: *//[^\n]*\n)* *match self"]),
    ("2", "functions, types and constants that are given twice", "twins",
     [r"fn (?:close|reopen)_table\([^\n]*\n(?:[^\n]*ensures[^\n]*\n)*    \{\n        if ", r"fn (?:close|reopen)_segment\([^\n]*\n(?:[^\n]*ensures[^\n]*\n)*    \{\n        if ",
      r"fn one_(?:advance|tray)_more\(", r"fn read_(?:one|two|three)_tables?\(", r"fn (?:ways|trays)_between\(", r"^enum (?:Ways|Trays) ",
      r"fn closed_(?:tables|segments)\(", r"fn (?:closing|reopening)\(self", r"^pub const NO_SEGMENT",
      r"^ *(?:Side::North|0) (?:=>|if) table / 16 > 0", r"^ *table % 16 < \w+(?:\.size)?\.width &&", r"^ *if note <= MOST \{",
      r"fn write_(?:tables|links)<[^\n]*\n[^\n]*\n\{\n(?:[^\n]*\n){1,2}    for "]),
    ("2", "arms for each nesting of one type, or for each type of one text", "",
     [r"^ *(?:Finder::(?:Once|Twice|Thrice)|Named::By(?:Rows|Tree))\(.*\) => [^\n]*\.(?:first_note|way|key)\(", r"^ *Refused::By(?:Map|Detour)\("]),
    ("3", "a loop over an index, or over numbers that it turns to another type", "",
     [r"^ *for (\w+) in [^{\n]*\.\.[^{\n]*\{(?:[^\n]*\n){1,9}?[^\n]*(?:\[\1(?: as usize)?\]|\b\1 as u(?:8|16)|512 \* (?:usize::from\()?\1|8 \+ \1)", r"^ *for i in 0\.\.255u16"]),
    ("3", "while and loop", "", [r"^ *(?:while|loop) "]),
    ("3", "a count by hand", "", [r"^ *[\w.]+ \+= 1;", r"^ *number = number\."]),
    ("4", "a conversion by hand from a word or a number", "",
     [r"fn (?:of_segment|entry_way)\([^\n]*\n[^\n]*\n *\{\n(?: *//[^\n]*\n)* *match", r"number\(\) == ", r"fn read\(word: &str\)", r"fn (?:told\(verdict|unchecked\(plan|reversed\()"]),
    ("4", "printing by hand: a local for each field, an impl for an error's text", "",
     [r"^ *let \w+ = (?:self|refusal|pass|entered|moved|tray|counts|map)\.[a-z][\w.]*(?:\(\))?;\n(?=(?:[^\n]*\n){0,9}[^\n]*write!)", r"^impl fmt::Display for (?:Wrong|Said|Fault) "]),
    ("5", "parameters that travel together, in the head of a function", "",
     [r"\((?:[^()\n]*, )?map: &Map, (?:depths|finder|keys|stops)[^\n]*", r"^ *map: &Map,\n *(?:finder|keys|stops)[^\n]*", r"\((?:&mut self, )?map: &Map, root: u8[^\n]*", r"\(head: Head, (?:body|content|stop|part|segment|table)[^\n]*"]),
    ("5", "a fact in the contracts of three functions and more", "",
     [r"^ *requires \{ [^\n]*length (?:keys|stops|body)\.(?:now|old) [^\n]*", r"map_of self\.new\.map ≡ map_of self\.old\.map", r"self\.new\.(?:plan|floor) ≡ self\.old\.(?:plan|floor) \}"]),
    ("6", "arrays of fixed length in a struct", "", [r"^ *(?:pub |pub\(crate\) )?\w+: \[(?:Option<\w+>|Mark|Node|bool|u8|u16); [\w]+\],"]),
    ("6", "a length beside a buffer", "", [r"^ *(?:pub\(crate\) )?count: usize,", r"^    count: u8,\n    (?:\}|ghost)"]),
    ("7", "a switch on which work to do, or on what is asked of a segment", "twins", [r"^ *Work::\w+ =>", r"fn (?:ways|trays)_between\("]),
]


def git(*words):
    return subprocess.run(["git", *words], capture_output=True, text=True, check=True).stdout


def sources(commit):
    names = git("ls-tree", "-r", "--name-only", commit, "crates").split() if commit else git("ls-files", "-co", "--exclude-standard", "crates").split()
    for name in sorted(set(names)):
        if re.fullmatch(r"crates/\w+/src/.*\.rt", name):
            yield name, git("show", f"{commit}:{name}") if commit else open(name).read()


def main(words):
    listed = "-l" in words
    commit = next((w for w in words if w != "-l"), None)
    texts = list(sources(commit))
    for point, what, kind, patterns in POINTS:
        places = set()
        for pattern in patterns:
            found = []
            for name, text in texts:
                for m in re.finditer(pattern, text, re.M):
                    at = m.start() + len(m.group()) - len(m.group().lstrip())
                    found.append((name, text.count("\n", 0, at) + 1, text[at:].split("\n", 1)[0].strip()))
            if kind != "twins" or len(found) > 1:
                places |= set(found)
        print(f"{point}  {what:<72} {len(places):4}")
        if listed:
            for name, line, first in sorted(places):
                print(f"     {name}:{line}: {first[:110]}")


main(sys.argv[1:])
