"""Scripts made at random, for `compare_shells.py` and `agreed_rows.py`, which tell what each kind has.

The commands and files of the scripts are those that `compare_shells.py` lays for them.
"""
import random
import re


class Words:
    """Commands that show the fields of words."""

    names = ["x", "e", "u", "p", "c", "n"]
    operands = [[], ["a b"], ["a", "b c", ""], ["", "x:y"], [" a ", "b", "c  d"], ["*", "a"]]
    values = ["''", "'a b'", "' a  b '", "a:b", "':a::b:'", "a.b.c", "'*'", "3", "'a:b c'", "x", "'a  '", "'  a'", "'::'",
              "': :'", "' : '", "'a\nb'"]
    separators = ["':'", "' :'", "','", "''", "'a'", "' '", "': '", "'.'", "':.'", "' \t\n'"]
    patterns = ["a", "*", "?", "a*", "*a", "*.", ".*", "[ab]", "[!a]", "*:", "b", '"*"', "'?'", "${p}", '"$p"', "[a-c]*",
                "?*", "\\*", "$c"]
    numbers = ["1", "2", "3", "n", "u", "010", "0x1f", "$n", "(n+1)", "-n", "!n", "~n", "7"]
    # (no division: by zero it is a fault, which before a program's name ends that program's process alone)
    operators = "+ - * << >> < <= == != & | ^ && ||".split() + [" ? 4 : "]

    def __init__(self, seed):
        self.pick = random.Random(seed).choice
        self.chance = random.Random(seed + 1).random

    def literal(self):
        return self.pick(["a", "b", "ab", "-", ".", "./", "x.y", "a:b", ":", "::", "1", "=", "A_"])

    def arithmetic(self):
        if self.chance() < 0.2:
            return f"$(({self.pick('nu')}={self.pick(self.numbers)}+1))"
        return f"$(({self.pick(self.numbers)}{self.pick(self.operators)}{self.pick(self.numbers)}))"

    def braces(self, depth, quoted):
        name, kind = self.pick(self.names + ["1", "2", "@", "*"]), self.chance()
        if kind < 0.2:
            return f"${{{name}}}"
        if kind < 0.65:
            operator = self.pick(["-", ":-", "+", ":+", *([] if name in "12@*" else ["=", ":="])])
            inner = [self.word(depth - 1, quoted) for _ in range(self.pick([1, 1, 2]))]
            return f"${{{name}{operator}{' '.join(inner)}}}"
        name = "x" if name in "@*" else name
        if kind < 0.9:
            return f"${{{name}{self.pick(['#', '##', '%', '%%'])}{self.pick(self.patterns)}}}"
        return f"${{#{name}}}"

    def part(self, depth, quoted):
        kind = self.chance()
        if depth <= 0 or kind < 0.3:
            return self.literal()
        if kind < 0.36:
            return " " if quoted else "\\ "
        if kind < 0.56 and not quoted:
            inner = self.word(depth - 1, True)
            return self.pick([f'"{inner}"', f"'{self.pick(['a b', '', '$x', '*', ':'])}'"])
        if kind < 0.68:
            return "$" + self.pick(self.names + ["1", "2", "#", "@", "*", "@", "*"])
        if kind < 0.86:
            return self.braces(depth, quoted)
        if kind < 0.9:
            return self.arithmetic()
        if kind < 0.95:
            return f"$(echo {self.words(depth - 1)})"
        return self.literal() if quoted else self.pick(["~", "~/a", "=~", ":~"])

    def word(self, depth, quoted=False):
        return "".join(self.part(depth, quoted) for _ in range(self.pick([0, 1, 1, 1, 2, 2, 3])))

    def words(self, depth):
        return " ".join(self.word(depth) for _ in range(self.pick([1, 1, 2, 3])))

    def setting(self):
        lines = [f"{name}={self.pick(self.values)}" for name in "xpc"]
        lines += ["e=", f"n={self.pick(['0', '3', '-4', '07'])}", "HOME=/h"]
        if self.chance() < 0.6:
            lines.append(f"IFS={self.pick(self.separators)}")
        return "; ".join(lines)

    def script(self):
        return f"{self.setting()}; show {self.words(3)}; echo $? $n"


class Documents(Words):
    """Bodies of here-documents, and assignments."""

    pieces = ["a b", '"', "'", "\\$x", "\\\\", "\\`", '\\"', "\\a", "x\\\ny", "  ", "\tq", "#c", "~", "*"]

    def line(self):
        # (in a body `$@` is joined by a space, as bash does it; the standard leaves it open)
        one = [self.pick(self.pieces), "$" + self.pick([*self.names, "1", "#", "*"]), self.arithmetic()]
        one += [self.braces(1, True).replace("@", "*"), f"$(echo {self.words(1)})"]
        return "".join(self.pick(one) for _ in range(self.pick([1, 2, 3, 4])))

    def document(self):
        tabs = self.chance() < 0.3
        body = [self.pick(["", "\t"]) + self.line() for _ in range(self.pick([1, 2, 3]))]
        start = f"cat <<{'-' * tabs}" + self.pick(["E", "E", "'E'", '"E"'])
        return "\n".join([start, *body, self.pick(["", "\t"] if tabs else [""]) + "E"])

    def assignments(self):
        if self.chance() < 0.5:
            return f'x={self.word(3)}; show "$x"'
        return f"x={self.word(2)} y={self.word(2)} vars {self.word(2)}\nshow $x $y"

    def script(self):
        return f"{self.setting()}\n{self.document() if self.chance() < 0.5 else self.assignments()}\necho $?\n"


class Processes:
    """Commands over a few files, which are shown at the end."""

    operands = [[]]
    made = ["f", "g", "h"]
    document = "cat <<E\nx$x ${y-n}\n\tt\nE"
    sources = ["cat <in", "cat <in", "cat <a", "two 2>&1", "two 2>/dev/null", "vars", "x=1 y=2 vars", "cat <long", "cat <nl",
               "true", "false", "head -n 2 <in", "having p <in", document]
    filters = ["cat", "cat", "head -n 1", "head -n 3", "having p", "having plum", "count", "sub", "show z",
               "cat <in", "echo no", "true"]
    values = ["a", '"b c"', '"$x"', "$x", "$y", "$?", '"$(cat <a)"', "$(echo p q)", "$((1+2))", "'q r'", "x$y", "${z-d}",
              '"${x:-e}"', "$(cat <in | having plum)", "$(false; echo $?)"]

    def __init__(self, seed):
        self.pick = random.Random(seed).choice
        self.chance = random.Random(seed + 1).random

    def free(self):
        """The files that commands may write to."""
        return self.made

    def redirection(self):
        file = self.pick(self.free())
        return self.pick([f" >{file}", f" >>{file}", f" >|{file}", f" >{file} 2>&1", f" 3>{file} >&3", f" 1<>{file}",
                          " 2>&1", " <in", " 2>/dev/null"])

    def pipeline(self):
        words = [f"echo {self.pick(self.values)} {self.pick(self.values)}", f"show {self.pick(self.values)}"]
        first, _, body = self.pick([*self.sources, *words]).partition("\n")
        stages = [first, *(self.pick(self.filters) for _ in range(self.pick([0, 0, 1, 1, 2, 3])))]
        text = ("! " if self.chance() < 0.1 else "") + " | ".join(stages)
        text += self.redirection() if self.chance() < 0.4 else ""
        return f"{text}\n{body}" if body else text

    def command(self):
        name, value = self.pick("xy"), self.pick(self.values)
        others = [f"{name}={value}", f"{name}=$({self.pipeline()}\n)", f"x={value} {self.pick(['vars', 'show $x', 'echo $x'])}",
                  f">{self.pick(self.free())}", self.pick(["nosuch", "st7", "./in", "./w"]), "cat <none"]
        return self.pick(others) if self.chance() < 0.35 else self.pipeline()

    def script(self):
        lines = []
        for _ in range(self.pick([2, 3, 4, 5, 6])):
            lines += [self.command(), *(['echo $? "$x" "$y"'] if self.chance() < 0.5 else [])]
        return "\n".join([*lines, *(f"echo {file}: ; cat <{file}" for file in self.made), ""])


class Lists(Processes):
    """Lists and compound commands of such commands, some of them with redirections."""

    inputs = ["<in", "<in", "<a", "<nl", "<long", "4<in <&4", "<<E", "<<E", "<<'E'"]
    bodies = ["plum", "x$x ${y-n}", "$? $(echo p q)", "\\$x", "$((1+2))p"]

    def __init__(self, seed):
        super().__init__(seed)
        self.loops = 0
        # The files to which the commands around this one write, and whether one of these is given something to read.
        self.written, self.is_given = [], False

    def free(self):
        # (what a command around writes to isn't opened again: a stage of a pipeline may write to it at the same time)
        return [it for it in self.made if it not in self.written]

    def output(self, file):
        # (no diagnostics, whose texts differ, and no word that changes a variable: whether a subshell's does differs)
        word = self.pick([file, file, file, f'"{file}"', f"${{z-{file}}}", f"$(echo {file})"])
        return self.pick([f">{word}", f">{word}", f">>{word}", f">|{word}", f"1<>{word}", f"3>{word} >&3", f">{word} 2>/dev/null",
                          f"5>/dev/null >&5 >{word}"])

    def redirected(self, make):
        """The compound command that `make` makes, sometimes with redirections and then with what it has written."""
        if self.chance() >= 0.25:
            return make()
        kind, given, file = self.chance(), self.is_given, self.pick(self.free())
        tail, body = [], ""
        if kind > 0.5:
            tail.append(self.pick(self.inputs))
            self.is_given = True
        if tail and "<<" in tail[0]:
            body = "".join(f"{self.pick(self.bodies)}\n" for _ in range(self.pick([0, 1, 2]))) + "E\n"
        is_written = kind < 0.75 and len(self.written) < 2
        if is_written:
            tail.insert(self.pick([0, len(tail)]), self.output(file))
            self.written.append(file)
        if self.chance() < 0.03:
            tail.insert(0, "<none")
        text = make()
        self.is_given = given
        if is_written:
            self.written.remove(file)
            if self.chance() < 0.1:
                # (two openings of the file, one inside of the other)
                text = f"{{ echo {self.pick(self.values)}\necho {self.pick(self.values)} >{file}\n{text}\n}}"
            if self.chance() < 0.5:
                body += self.pick(["", "echo $?\n"]) + f"cat <{file}\n"
        text = f"{text} {' '.join(tail)}"
        return f"{{ {text}\n{body}}}" if body else text

    def simple(self, loops):
        if loops and self.chance() < 0.2:
            return self.pick(["break", "continue", "break 1", "continue 2", "break 3", "x=1 && break", "false || continue"])
        text = self.pick(["true", "false", ":", "exit 3", "echo $?", "echo $x$i"]) if self.chance() < 0.4 else self.command()
        return "(exit 4)" if "\n" in text or text == "exit 3" and loops is not None else text

    def piece(self, depth, loops):
        """A command, or a pipeline, in whose processes no loop is seen."""
        if depth and self.chance() < 0.5:
            text = self.compound(depth - 1, loops)
            # (a filter that leaves early would end what writes to it, and the turns would say where)
            reader = self.pick(["cat", "having p", "count", "sub"])
            return f"{self.compound(depth - 1, 0)} | {reader}" if self.chance() < 0.2 else text
        if self.is_given and self.chance() < 0.25:
            return self.pick(["cat", "cat", "having p", "count", "sub", "x=$(cat)", "cat | having p"])
        text = self.simple(loops)
        return f"! {text}" if self.chance() < 0.1 and text[:5] not in ("break", "conti", "retur", "x=1 &", "false") and text[0] != "!" else text

    def and_or(self, depth, loops):
        text = self.piece(depth, loops)
        while self.chance() < 0.35:
            text += self.pick([" && ", " || ", " &&\n", " ||\n"]) + self.piece(depth, loops)
        return text

    def list(self, depth, loops):
        return "\n".join(self.and_or(depth, loops) for _ in range(self.pick([1, 1, 2, 3])))

    def loop(self, depth, loops):
        self.loops += 1
        count, last = f"k{self.loops}", self.pick(["a", "aa"])
        start = self.pick([
            f"for i in {self.pick(['a b', 'a', '', '$x', 'p $y q'])}; do",
            f"until echo x${count} | having x{last} >/dev/null; do {count}=a${count}",
            f"while ! echo x${count} | having x{last} >/dev/null; do {count}=a${count}",
        ])
        text = self.redirected(lambda: f"{start}\n{self.list(depth, (loops or 0) + 1)}\ndone")
        return text if start.startswith("for") else f"{{ {count}=\n{text}\n}}"

    def condition(self, depth, loops):
        text = f"if {self.list(depth, loops)}\nthen {self.list(depth, loops)}\n"
        text += f"elif {self.list(depth, loops)}\nthen {self.list(depth, loops)}\n" if self.chance() < 0.3 else ""
        return text + (f"else {self.list(depth, loops)}\n" if self.chance() < 0.5 else "") + "fi"

    def compound(self, depth, loops):
        kind = self.pick(["group", "subshell", "if", "if", "loop", "loop"])
        if kind == "loop":
            return self.loop(depth, loops)
        if kind == "group":
            return self.redirected(lambda: f"{{ {self.list(depth, loops)}\n}}")
        if kind == "subshell":
            return self.redirected(lambda: f"( {self.list(depth, None)} )")
        return self.redirected(lambda: self.condition(depth, loops))

    def script(self):
        lines = []
        for _ in range(self.pick([1, 2, 3])):
            lines += [self.and_or(3, 0), 'echo $? "$x" "$y" $i']
        return "\n".join([*lines, *(f"echo {file}: ; cat <{file}" for file in self.made), ""])


class Errexit(Lists):
    """Such lists in subshells with `set -e`, in places where failures count and where they are ignored."""

    def script(self):
        lines = []
        for _ in range(self.pick([1, 2, 3])):
            text = self.redirected(lambda: f"( set -e\n{self.list(3, None)}\necho end )")
            lines.append(self.pick([text, text, f"{text} || echo no", f"if {text}\nthen echo yes; else echo no; fi", f"! {text}", f"{text} | cat"]))
            lines.append('echo $? "$x" "$y" $i')
        return "\n".join([*lines, *(f"echo {file}: ; cat <{file}" for file in self.made), ""])


class Cases(Lists):
    """Such lists with many `case` commands, some of them under `set -e`."""

    operands = [[], ["a", "b c"], ["ab"]]
    words = ["a", "b", "ab", "abc", "A", "''", '"a b"', "'*'", "*", "i*", "[a]", "\\*", "a\\ b", '"]"', "~", "~/a", '"~"', "/a/b",
             ".a", "in", "esac", "$x", '"$x"', "$y", '"$x$y"', "x$y", "$i", '"$i"', "$1", '"$1"', '"$*"', "$#", "$?", "$v", "$w",
             "${z-a b}", "${x:-a}", "${x+b}", "${v=a}", "${w:=b}", "$((n=n+1))", "$((n+1))", "${#x}", "${x%?}", "$(echo a b)",
             "$(echo b)", '"$(cat <a)"', "`echo ab`", "$(true)", "$(head -n 1 <in)", "$(cat <in | having pie)", "a$(echo b)c"]
    literals = ["a", "b", "ab", "''", '"a b"', "a\\ b", "A", "1", "2", "0", "apple", "if", "in", "{", "!", "a=b", "~", '"*"',
                "\\*", "'[a]'", '"?"']
    # (`[^a]` and a backslash that an expansion gives are left to rows, since two shells or one take them in other ways)
    globs = ["*", "?", "??", "a*", "*b", "*p*e", "?b*", "[ab]", "[ab]*", "[!a]", "[!b-d]*", "[a-c]", "[a-c]?", "[c-a]", "[]a]",
             '[a"-"c]', "['!'a]*", "[[:alpha:]]", "[[:upper:]]*", "[[:digit:]]", "[![:lower:]]", "[[:alpha:][:space:]]*",
             "*[[:blank:]]*", "[", "[a", "/*", ".*", "?a", 'a"*"', '"a"*', "*\\**", "~/?"]
    expanded = ["$x", '"$x"', "$x*", '"$x"*', "*$y", "$i", "$1", '"$*"', "$#", "$?", "$v", "$w", "[$x]", "${z-a*}", '"${z-a*}"',
                "${z-?}b", "${x#?}", "${x:+?}", "${v=a}", "${v=b}", "${w:=?}", "$((n=n+1))", "$((n))", "${#x}", "$(echo a)",
                "$(echo 'a*')", "\"$(echo 'a*')\"", "`echo '[ab]'`", "$(cat <a)", "$(head -n 1 <in)", "$(true)"]

    def simple(self, loops):
        if self.chance() < 0.15:
            return self.pick(['echo "$v" "$w" $n', "echo $?", "v=", "w=b", "n=0", "x=ab", "y='a*'"])
        return super().simple(loops)

    def pattern(self, word):
        kind = self.chance()
        if kind < 0.08:
            return self.pick(self.literals) + self.pick(self.globs)
        if kind < 0.2:
            return "?" if word == "esac" else word
        return self.pick(self.literals if kind < 0.35 else self.globs if kind < 0.65 else self.expanded)

    def item(self, word, body, is_last):
        patterns = [self.pattern(word) for _ in range(self.pick([1, 1, 1, 2, 2, 3]))]
        if is_last and self.chance() < 0.4:
            patterns[-1] = "*"
        text = self.pick(["", "", "("]) + self.pick(["|", "|", " | "]).join(patterns) + ")" + self.pick([" ", " ", "\n"])
        ends = ["\n", ";; ", ";;\n"] if is_last else [";; ", ";;\n", "\n;;\n", "\n;;\n\n"]
        return text + (body() if self.chance() < 0.85 else "") + self.pick(ends)

    def case(self, body):
        """A case whose lists `body` makes, some with redirections."""
        return self.redirected(lambda: self.bare_case(body))

    def bare_case(self, body):
        word, last = self.pick(self.words), self.pick([0, 1, 2, 2, 3, 3])
        items = "".join(self.item(word, body, at == last) for at in range(1, last + 1))
        return f"case {word}" + self.pick([" ", " ", "\n"]) + "in" + self.pick([" ", "\n"]) + items + "esac"

    def compound(self, depth, loops):
        kind = self.chance()
        if kind < 0.5:
            return self.case(lambda: self.list(depth, loops))
        if kind < 0.58:
            return "! " + self.case(lambda: self.list(depth, 0))
        if kind < 0.66:
            return f"{self.pick('xy')}=$({self.case(lambda: self.list(depth, None))}\n)"
        if kind < 0.74:
            readers = ["cat", "sub", "count", "cat && echo end", "echo no", "x=1", "false", "(exit 4)"]
            return f"echo {self.pick(self.values)} {self.pick(self.values)} | {self.case(lambda: self.pick(readers))}"
        return super().compound(depth, loops)

    def script(self):
        lines = ["HOME=/h"]
        for _ in range(self.pick([1, 2, 3])):
            text = self.pick([self.compound(2, 0), self.and_or(2, 0)])
            if self.chance() < 0.25:
                text = self.redirected(lambda: f"( set -e\n{self.list(2, None)}\necho end )")
                text += self.pick(["", " || echo no", " && echo yes", " | cat"])
            lines += [text, 'echo $? "$x" "$y" "$v" "$w" $n $i']
        return "\n".join([*lines, *(f"echo {file}: ; cat <{file}" for file in self.made), ""])


class Builtins(Lists):
    """Built-ins that act on variables, options, parameters and the directory, and conditions, in such lists."""

    conditions = ['-n "$x"', '-z "$y"', '"$x" = a', '"$x" != "$y"', "-f in", "-d w", "-d in", "-e none", "-s a", "-r in", "! -f w",
                  "$# -gt 1", "2 -le $#", "-1 -lt 0", "a", "''", "! a = b", "! = !", "-n = -n", "a -eq a", "1 2", "-f", "! ''"]
    options = ["-f", "+f", "-C", "+C", "-a", "+a", "-o noglob", "+o noglob", "-fC", "+fC", "-af", "-o noclobber -f", "-z"]

    def built_in(self):
        word, condition = self.pick(self.values), self.pick(self.conditions)
        return self.pick([
            f"[ {condition} ]", f"test {condition}", f"if [ {condition} ]; then echo yes; else echo no; fi",
            f"set -- {word} {self.pick(self.values)}", "set a b c", "set --", "set -- *", f"set {self.pick(self.options)}",
            "shift", "[ $# -gt 1 ] && shift 2", "shift 0", "unset x", "unset -v x y", "unset none", "echo $# $*",
            "(cd w && echo ${PWD##*/} && cd .. && cat <a)", "(cd ./w/../w; cd - >/dev/null; cat <a)", "cd none", "cd in",
            f"(cd w; {self.pipeline()}\n)", "(HOME=w cd; echo ${PWD##*/})", "cd . && cat <a", "(unset HOME; cd; echo $?)",
        ])

    def simple(self, loops):
        text = self.built_in() if self.chance() < 0.6 else super().simple(loops)
        return "(exit 4)" if "<<" in text else text


class Functions(Cases):
    """Functions, `return` and `eval` in such lists, some under `set -e`."""

    names = ["h", "g", "f"]
    operands = [[], ["a", "b c"], ["ab"]]
    arguments = ["", "", " a", ' "$x" b', ' "$@"', " $*", " '' c", " $y", " $(echo p q)"]
    texts = ["echo $x", 'echo "$y" $#', "x=e; y=\\$x", "y=$x; false", "false", "true && false", "! true", "", "# c",
             "if true; then echo in; fi", "for j in 1 2; do echo $j; done", "echo a | cat", "echo a\necho b", "cat <<E\nx$x\nE",
             'eval "echo \\$x"', "case $x in a*) echo $x;; esac", "(exit 3)", "(false || exit 4)", "echo $?"]

    def __init__(self, seed):
        super().__init__(seed)
        # The functions that may be called here: those that are defined before this one, so that none calls itself.
        self.callable, self.is_function = [], False

    def call(self):
        # (to no file: what the body writes there would be read in it, by a cat that writes to it)
        before, to = self.pick(["", "", "", "x=1 ", "y=$x "]), ["", "", "", "", " >/dev/null", " 2>/dev/null", " <in", " 3>&1"]
        return before + self.pick(self.callable) + self.pick(self.arguments) + self.pick(to)

    def evaluation(self, loops):
        text = self.pick(self.texts)
        if loops and self.chance() < 0.2:
            text += self.pick(["\nbreak", "\ncontinue", "\n(break)"])
        if self.is_function and self.chance() < 0.2:
            text += self.pick(["\nreturn", "\nreturn 5"])
        if self.callable and not self.written and self.chance() < 0.2:
            text += "\n" + self.call()
        quoted = text.replace("'", "'\\''")
        return f"eval '{quoted}'"

    def simple(self, loops):
        kind = self.chance()
        if self.callable and not self.written and kind < 0.25:
            return self.call()
        if self.is_function and kind < 0.35:
            return self.pick(["return", "return 3", "return 0", "return $#", "false || return", "return $(echo 4)", "(return 6)"])
        if kind < 0.5:
            return self.evaluation(loops)
        if kind < 0.6:
            return self.pick(['echo "$#" "$1" "$2"', "[ $# -gt 0 ] && shift", "set -- p 'q r'", "break", "continue", "echo $?"])
        return super().simple(loops)

    def definition(self, name):
        """A function, which calls only those before it."""
        outside = self.callable, self.is_function
        self.callable, self.is_function = self.names[: self.names.index(name)], True
        body = self.compound(self.pick([0, 1, 1, 2]), 0)
        while body[0] not in "{(" and body[:2] not in ("if", "fo", "ca"):
            body = self.compound(1, 0)
        self.callable, self.is_function = outside
        return f"{name}() {{ {body}\n}}" if "\n" in body.partition(" ")[0] or body.count("<<") else f"{name}() {body}"

    def compound(self, depth, loops):
        if self.is_function and self.chance() < 0.6:
            return Lists.compound(self, depth, loops)
        return super().compound(depth, loops)

    def script(self):
        lines = ["HOME=/h"]
        for name in self.names:
            lines.append(self.definition(name))
            self.callable.append(name)
        for _ in range(self.pick([1, 2, 3])):
            text = self.pick([self.call(), self.and_or(2, 0), f"{self.call()} || echo no", f"if {self.call()}; then echo yes; fi"])
            if self.chance() < 0.3:
                text = self.redirected(lambda: f"( set -e\n{self.list(2, None)}\necho end )")
                text += self.pick(["", " || echo no", " && echo yes", " | cat"])
            lines += [text, 'echo $? "$x" "$y" $# "$1" $i']
        if self.chance() < 0.3:
            # (what is said of a function that isn't there any more differs)
            lines += [f"unset -f {self.pick(self.names)}", *(f"{it} a 2>/dev/null\necho $?" for it in self.names)]
        self.callable = []
        return "\n".join([*lines, *(f"echo {file}: ; cat <{file}" for file in self.made), ""])


class Traps(Functions):
    """Traps on the exit of the shell, of subshells, of substitutions and of stages, in such lists, some under `set -e`.

    Left out is what real shells do in several ways:
    - `exit`, or a failure under `set -e`, inside redirected commands, and inside functions that are called with redirections, with
      assignments or with parameters that the action shows: some shells leave these before the action, some don't.
    - In the action: `return` of its own, `exit` without operand in a process that the action makes, `return` without operand in a
      function, `break` and `continue` without a loop, faults, texts outside the grammar, a trap on the exit, the list of traps.
    - The list of traps in a subshell, of actions with quotes or newlines, and of actions of one word; wrong usage and bad conditions;
      assignments before `trap`, which are exported by some; an ignored PIPE.
    - Faults and refused redirections before the action, whose statuses differ.
    - `set -e` in a substitution, or in a process around one: whether a place that ignores failures reaches into it differs.
    """

    # (with a blank in each, so that all shells quote it in their lists; no single quotes, no newlines)
    actions = ["echo t $?", "echo t $x", 'echo t "$x" "$y"', "echo t >/dev/null", "x=t; echo $x", "false; echo $?", "(exit 4); echo t $?",
               "echo t; exit 5", "echo t; exit 0", "echo t; exit", "false; exit", "echo t | cat", "echo $(echo t $?)", "cat <a",
               "for j in 1 2; do echo t$j; done", "case $x in a*) echo t;; *) echo u;; esac", "if false; then :; else echo t $?; fi",
               "while :; do echo t; break; done", "{ echo t; } >/dev/null; echo u", "y=$(echo t; exit 3); echo $y $?", "t a; echo $?",
               "t; exit", "eval echo t; false", "eval exit 3", "set -e; false; echo no", "set +e; false; echo t", "false && :; echo t $?",
               "! :; echo $?", "echo t | having z; echo $?", "(echo t; exit 6) && echo no", ": $x", "# none", "st7; echo $?"]
    names = ["g", "f"]
    signals = ["trap ': a' HUP", "trap ': b' INT TERM", "trap '' HUP INT", "trap - HUP", "trap - INT HUP TERM", "trap 1 2",
               "trap 'echo no' TERM"]

    def __init__(self, seed):
        super().__init__(seed)
        # Whether the exit of the shell that runs this may have an action, whether `set -e` is on, and whether it is a substitution's.
        self.is_trapped, self.is_errexit, self.is_answer = False, False, False

    def action(self):
        text = self.pick(self.actions)
        return "echo t" if self.is_answer and "set -e" in text else text

    def setting(self):
        """Sets the action of the exit, or takes it away."""
        trap = f"trap '{self.action()}' {self.pick(['EXIT', '0', 'EXIT', 'EXIT HUP'])}"
        quoted = trap.replace("'", '"').replace("$", "\\$")
        evaluated = trap if '"' in trap else f"eval '{quoted}'"
        return self.pick([trap, trap, trap, trap, evaluated, "trap - EXIT", "trap '' EXIT", "trap 0", "s", "s"])

    def redirected(self, make):
        return make() if self.is_trapped else super().redirected(make)

    def call(self):
        if not self.is_trapped:
            return super().call()
        return self.pick(self.callable) + self.pick(self.arguments)

    def simple(self, loops):
        if self.chance() < 0.12:
            return self.pick(self.signals)
        if not self.is_trapped or self.is_function:
            return super().simple(loops)
        kind = self.chance()
        if kind < 0.15:
            return self.setting()
        if kind < 0.2 and loops is None:
            return self.pick(["exit", "exit 3", "false || exit", "exit $?", "exit 0", "eval 'exit 4'", "e 6", "e 0"])
        text = super().simple(loops)
        # (what a program's refused redirection comes to differs)
        return "(exit 4)" if "none" in text and "<" in text else text

    def within(self, depth, is_answer=False):
        """A list in a process of its own, with an action for its exit."""
        outside = self.is_trapped, self.is_errexit, self.is_answer, self.is_given
        self.is_trapped, self.is_answer, self.is_given = True, self.is_answer or is_answer, False
        text = self.trapped(depth)
        self.is_trapped, self.is_errexit, self.is_answer, self.is_given = outside
        return text

    def trapped(self, depth):
        lines = []
        if not self.is_answer and self.chance() < 0.3:
            lines.append("set -e")
            self.is_errexit = True
        lines.insert(self.pick([0, len(lines)]), f"trap '{self.action()}' EXIT" if self.chance() < 0.8 else self.setting())
        lines.append(self.list(depth, None))
        if self.chance() < 0.4:
            lines.append(self.pick(["exit", "exit 3", "false", "(exit 4)", "e 5", "false || exit", "e 0", "return 3"]))
        return "\n".join(lines)

    def definition(self, name):
        """A small function."""
        outside = self.callable, self.is_function
        self.callable, self.is_function = self.names[: self.names.index(name)], True
        body = self.list(self.pick([0, 0, 0, 1]), 0)
        self.callable, self.is_function = outside
        return f"{name}() {{ {body}\n}}"

    def compound(self, depth, loops):
        kind = self.chance()
        if self.is_function or kind < 0.35:
            text = super().compound(depth, loops)
            return "(exit 4)" if self.is_errexit and "=$(case" in text else text
        if kind < 0.5 and not self.is_errexit:
            return f"{self.pick('xy')}=$({self.within(depth, True)}\n)"
        if kind < 0.8:
            return self.redirected(lambda: f"( {self.within(depth)} )")
        if kind < 0.93:
            return f"{{ {self.within(depth)}\n}} | {self.pick(['cat', 'having t', 'count', 'sub'])}"
        # (what the stage before it writes is little, so that it doesn't matter which of the two comes first)
        return f"echo {self.pick(self.values)} | {{ {self.within(depth)}\n}}"

    def script(self):
        lines = ["HOME=/h", 't() { echo "t$1"; return 4; }', "e() { exit $1; }"]
        self.is_trapped = True
        for name in self.names:
            lines.append(self.definition(name))
            self.callable.append(name)
        action = self.pick([it for it in self.actions if "set -e" not in it])
        lines.append(f"s() {{ trap '{action}' {self.pick(['EXIT', '0'])}; }}")
        self.is_trapped = False
        for _ in range(self.pick([1, 2, 3])):
            text = self.compound(self.pick([1, 2, 2]), 0)
            text += self.pick(["", "", "", " || echo no", " && echo yes"])
            lines += [text, 'echo $? "$x" "$y" $i']
        lines += [f"echo {file}: ; cat <{file}" for file in self.made]
        # the exit of the shell itself
        self.is_trapped = True
        lines += [self.and_or(1, None) if self.chance() < 0.3 else self.setting() for _ in range(self.pick([1, 1, 2]))]
        lines += self.pick([[], [], ["trap"], ["set -e"]])
        lines += self.pick([[], [], [self.and_or(1, None), "echo $?"], ["exit 3"], ["false"], ["e 4"]])
        self.is_trapped, self.callable = False, []
        return "\n".join([*lines, ""])


class Texts(Functions):
    """Dot scripts and `exec` in such lists.

    Left out is what real shells do in several ways: whether a dot script sees the loops around it, and a place around it that ignores
    failures under `set -e`; operands of a dot script, and assignments before one; what a dot script that can't be read, or a redirection of `exec` that fails, comes to.
    """

    programs = ["echo x $x", "show $x z", "two 2>/dev/null", "cat <a", "vars", "x=1 y=2 exec vars", "st7", "head -n 1 <in", "nosuch",
                "-- cat <in", "true", "sub <in", "having p <in"]

    def __init__(self, seed):
        super().__init__(seed)
        # The dot scripts that are there already.
        self.readable = []

    def dot(self):
        return f". ./{self.pick(self.readable)}{self.pick(['', '', '', ' >/dev/null', ' <in', ' 2>/dev/null', ' 3>&1'])}"

    def program(self):
        text = self.pick(self.programs)
        return text if "exec" in text else f"exec {text}"

    def execution(self):
        """`exec` in a process that is made for it, or with descriptors that are closed again."""
        kind = self.chance()
        if kind < 0.25:
            return f"( {self.list(0, None)}\n{self.program()}\necho no )"
        if kind < 0.35:
            return f"{self.pick('xy')}=$({self.program()})"
        if kind < 0.45:
            return f"echo {self.pick(self.values)} | exec {self.pick(['cat', 'having p', 'count', 'sub'])}"
        if kind < 0.6:
            return f"( exec {self.pick(['<in', '<a', '4<in <&4', '2>/dev/null <in'])}\n{self.pick(['cat', 'x=$(cat); echo $x', 'sub'])} )"
        if kind < 0.7 or not self.free() or len(self.written) > 1:
            return self.pick(["exec 5>&1; echo a >&5; exec 5>&-", "exec 4<in; cat <&4; exec 4<&-", "exec; echo $?", "exec 2>&2; echo $?",
                              "(exit 3); x=$(exit 4) exec; echo $?"])
        file = self.pick(self.free())
        self.written.append(file)
        text = f"( exec {self.pick(['>', '>>', '>|', '5>&1 >'])}{file}\n{self.list(0, None)} )"
        self.written.remove(file)
        return text

    def simple(self, loops):
        kind = self.chance()
        if self.readable and not self.written and kind < 0.2:
            return self.dot()
        if kind < 0.35:
            text = self.execution()
            return "(exit 4)" if "<<" in text else text
        return super().simple(loops)

    def dot_script(self, name):
        """Makes a dot script, which runs only those before it."""
        outside, self.is_function = self.is_function, True
        body = "break"
        while re.search("break|continue|END", body):
            body = self.list(self.pick([0, 1, 1, 2]), None)
        self.is_function = outside
        body += self.pick(["", "", "\nreturn 3", "\nfalse", "\nk() { echo k$1; }", "\nset -- d e"])
        return f"cat <<'END' >{name}\n{body}\nEND"

    def script(self):
        lines = ["HOME=/h", "k() { :; }"]
        for name in self.names:
            lines.append(self.definition(name))
            self.callable.append(name)
        for name in ("d1", "d2"):
            lines.append(self.dot_script(name))
            self.readable.append(name)
        for _ in range(self.pick([1, 2, 3])):
            text = self.pick([self.dot(), self.and_or(2, 0), f"{self.dot()} || echo no", f"if {self.dot()}; then echo yes; fi",
                              self.execution(), f"( {self.dot()} ) | cat"])
            if self.chance() < 0.3:
                # (whether a place that ignores failures reaches into a dot script differs)
                readable, self.readable = self.readable, []
                text = self.redirected(lambda: f"( set -e\n{self.list(2, None)}\necho end )")
                self.readable = readable
                text += self.pick(["", " || echo no", " && echo yes", " | cat"])
            lines += [text, 'echo $? "$x" "$y" $# "$1" $i', "k a"]
        lines += [f"echo {file}: ; cat <{file}" for file in self.made]
        lines += self.pick([[], [], [self.program(), "echo no"]])
        self.callable, self.readable = [], []
        return "\n".join([*lines, ""])


class Input(Lists):
    """`read` from files, here-documents, pipes and the input of commands around, and `command`, in such lists.

    Left out is what real shells do in several ways:
    - `read` without a name, with a word that is no name or with a read-only one, whose statuses and messages differ; a NUL byte; a
      backslash before the end of the file.
    - `command -v` of programs, of what isn't there, and of built-ins that are programs as well; usage; `command export x=$x`.
    - Errors of special built-ins behind `command`, other than a file that isn't there, and faults in a text that it runs.
    """

    separators = ["", "", "", "IFS=: ", "IFS=: ", "IFS=' :' ", "IFS=, ", "IFS= ", "IFS=' ' ", "IFS=':,' ", "IFS=a ", "IFS=', ' ",
                  "IFS='\t' "]
    fields = ["a", "b c", " a  b ", "a:b", ":a::b:", "a:b:", "x:y::", "a , b", "a,b c,", "", "  ", "\ta\tb c\t", '"q r"', "'s'", "*",
              "::", " : ", "$x", "c:d e:f", "plum pie", ", a:b ,", "a b c d", "1:2:3:4", ":", "a:", " :a: ", "# n"]
    # (no two backslashes, and no letter behind one that an `echo` with escapes takes for one)
    escapes = ["a\\ b", "a\\:b", "a\\\nb", "\\ a", "\\,a b", "b\\=c", "a \\\n b", "\\q\\ ", "\\:"]
    variables = ["x", "x", "x y", "x y", "y x", "x y v", "x v y", "x x"]
    shown = 'echo "<$x><$y><$v>"'
    words = [":", ".", "eval", "exit", "export", "set", "shift", "trap", "unset", "cd", "read", "command", "if", "then", "elif", "else",
             "fi", "while", "until", "do", "done", "for", "in", "case", "esac", "{", "}", "!", "f"]
    utilities = ["cat <in", "cat <a", "echo $x", 'show "$y"', "vars", "true", "false", ":", "f a", "command echo a", "st7", "-- echo b",
                 "two 2>/dev/null", "eval 'echo $x; false'", "eval", "set -- p q", ". ./none 2>/dev/null || echo no", "having p <in",
                 "eval 'echo a' >/dev/null", "shift 0", "x=9 2>/dev/null || echo no", "eval 'x=e; y=f'", "unset x", "command -v cd",
                 "cd .", "nosuch 2>/dev/null", "trap : HUP"]

    def reading(self):
        return self.pick(self.separators) + f"read {self.pick(['', '', '-r ', '-r -- ', '-- '])}{self.pick(self.variables)}"

    def text(self):
        """The rest of a here-document's first line, and its lines."""
        lines = [self.pick(self.fields) for _ in range(self.pick([0, 1, 1, 2, 3]))]
        lines += [self.pick(self.escapes) + self.pick(["", " b", ":b"])] if self.chance() < 0.3 else []
        return self.pick(["<<E", "<<'E'", "<<'E'"]) + "\n" + "".join(f"{it}\n" for it in lines) + "E"

    def within(self, make):
        """What `make` makes, being given something to read."""
        given, self.is_given = self.is_given, True
        text = make()
        self.is_given = given
        return text

    def repeated(self, depth, loops):
        """A loop that reads line by line, and what it reads."""
        reading = self.reading()
        # (where it left one of the two as it was, the loop could go on for ever)
        last = ['while {} || [ "$x$y" ]'] if "x" in reading and "y" in reading else []
        test = self.pick(["while {}", "while {}", "until ! {}", *last]).format(reading)
        body = self.within(lambda: self.list(depth, (loops or 0) + 1)) if self.chance() < 0.4 else ":"
        kind, text = self.chance(), f"{test}\ndo {self.shown}\n{body}\ndone"
        if kind < 0.45:
            return f"{{ {text} {self.text()}\n}}"
        if kind < 0.7:
            return f"{text} <{self.pick(['in', 'a', 'nl', 'in'])}"
        first = self.pick(["cat <in", "echo $x $y", "cat <nl", "two 2>&1", "echo a:b c; echo d", "false"])
        return f"{{ {first}\n}} | {text}" if loops is None else f"{{ {text} <in\n}}"

    def taken(self, depth):
        """Commands that read from one input, one after another."""
        some = [self.reading() + self.pick(["", "", " || echo no"]), f"( {self.reading()} ; {self.shown} )", self.shown, "echo $?",
                "cat", "x=$(cat)", "y=$(read x; echo $x)", "count", "having p", f"if {self.reading()}; then {self.shown}; fi",
                "eval 'read x'"]
        lines = [self.reading(), *(self.pick(some) for _ in range(self.pick([1, 2, 3])))]
        lines += [self.within(lambda: self.list(depth, None))] if self.chance() < 0.2 else []
        body = "\n".join([*lines, self.shown])
        kind = self.chance()
        if kind < 0.4:
            return f"{{ {body}\n}} <{self.pick(['in', 'in', 'a', 'nl', 'long'])}"
        if kind < 0.75:
            return f"{{ {{ {body}\n}} {self.text()}\n}}"
        return f"{{ {self.pick(['cat <in', 'echo $x $y', 'cat <nl', 'echo a:b; echo c d', 'two 2>&1'])}\n}} | {{ {body}\n}}"

    def simple(self, loops):
        kind = self.chance()
        if kind < 0.2:
            return f"{self.reading()} {self.pick(['<in', '<a', '<nl', '<in', '</dev/null', '3<in <&3', '<&-'])}"
        if kind < 0.25 and self.is_given:
            return self.reading()
        if kind < 0.3:
            return f"{self.pick(['x=1', 'y=2', 'x=$y'])} command {self.pick(['vars', 'echo a', 'eval vars', 'true', 'show b'])}"
        if kind < 0.36:
            return f"command -v {self.pick(self.words)}"
        if kind < 0.45:
            return f"command {self.pick(self.utilities)}"
        if loops and kind < 0.5:
            return self.pick(["command break", "command continue", "command eval break", "read x <in && command break"])
        if kind < 0.53:
            return "(command exit 3)"
        return super().simple(loops)

    def compound(self, depth, loops):
        kind = self.chance()
        if kind < 0.3:
            return self.repeated(depth, loops)
        return self.taken(depth) if kind < 0.6 else super().compound(depth, loops)

    def script(self):
        lines = ["f() { echo f$1; }"]
        lines += self.pick([[], [], ["cat() { command cat; echo cat; }"], ['echo() { command echo "$@" .; }'], ["IFS=:"]])
        for _ in range(self.pick([1, 2, 3])):
            lines += [self.pick([self.and_or(2, 0), self.taken(1), self.repeated(1, None)]), 'echo $? "$x" "$y" $#']
        return "\n".join([*lines, "unset -f cat echo", *(f"echo {file}: ; cat <{file}" for file in self.made), ""])


SOURCES = {"words": Words, "documents": Documents, "processes": Processes, "lists": Lists, "errexit": Errexit, "case": Cases,
           "builtins": Builtins, "functions": Functions, "traps": Traps, "texts": Texts, "input": Input}
