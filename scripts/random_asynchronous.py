"""Scripts made at random with asynchronous lists, for `compare_shells.py`, which tells what they have."""
from random_scripts import Functions


class Asynchronous(Functions):
    """Asynchronous lists of every form, and `wait`, in such lists.

    Each list that goes on by itself writes to a file of its own, which is shown once the shell has waited for it, so that nothing
    depends on the order of turns. Left out is what real shells do in several ways: what a list reads in whose surroundings the input
    is redirected; a second wait for a process; the number of a process; messages of jobs.
    """

    tests = ["echo $?", '[ "$!" ] && echo known', "wait 99999 || echo $?", "wait || echo no", 'echo "$x" $?']

    def __init__(self, seed):
        super().__init__(seed)
        self.lists, self.own = 0, None

    def free(self):
        return [self.own] if self.own else super().free()

    def apart(self, make):
        """What `make` makes, where only a file of its own is written to."""
        self.lists += 1
        number, around = self.lists, (self.own, self.written, self.is_given)
        self.own, self.written, self.is_given = f"q{number}", [], False
        text = make()
        self.own, self.written, self.is_given = around
        return number, text

    def body(self):
        kind = self.chance()
        if kind < 0.2:
            return self.pick(["(exit 3)", "false", "true", "st7", "x=2", "exit 4", ": ; false", "cat", "count", "cat | count"])
        if kind < 0.4:
            return self.pick(["{ ", "( trap 'echo t' EXIT\n", "( set -e\n"]) + f"{self.list(1, None)}\n" + self.pick(["", "exit 5\n"])
        if kind < 0.5:
            number, inner = self.launch(0)
            return f"{{ {inner}\nwait {self.pick(['', f'$p{number}'])}\necho $?\ncat <o{number}\n"
        return f"{{ {self.list(1, None)}\n"

    def launch(self, depth):
        """An asynchronous list, whose number is in the names of its files and of the variable that has its process."""
        number, text = self.apart(self.body)
        out = f">o{number} 2>/dev/null"
        if text.startswith("{"):
            text = f"{text}}} {out}"
        elif text.startswith("( "):
            text = f"{text}) {out}"
        else:
            text = f"{{ {text}\n}} {out}"
        text = self.pick(["", "", "", "! ", "true && ", "false || ", "cat <in | ", "true | "]) + text
        text = f"f{number}() {text}\nf{number} a" if self.chance() < 0.1 and text[0] in "{(" else text
        return number, f"{text} & " + self.pick(["", "", "echo $?; "]) + f"p{number}=$!"

    def waits(self, numbers):
        """Each of these is waited for, and what it has written is shown."""
        some = [f"wait $p{it}\necho $?" for it in numbers]
        if self.chance() < 0.3:
            some = ["wait\necho $?"]
        elif self.chance() < 0.2:
            some = ["wait " + " ".join(f"$p{it}" for it in numbers) + "\necho $?"]
        return "\n".join([*some, *(f"echo o{it}: ; cat <o{it}" for it in numbers)])

    def script(self):
        lines = []
        for _ in range(self.pick([1, 2])):
            numbers = []
            for _ in range(self.pick([1, 1, 2, 3])):
                number, text = self.launch(1)
                lines.append(text)
                numbers.append(number)
                lines += self.pick([[], [], [self.pick(self.tests[:2])], [self.and_or(1, 0), "echo $?"]])
            lines += [self.waits(numbers), self.pick(self.tests)]
        if self.chance() < 0.2:
            lines = [self.pick(["( ", "{ ", "f() {\n"]) + "\n".join(lines)]
            lines.append({"( ": ")", "{ ": "}", "f() {\n": "}\nf"}[next(it for it in ("( ", "{ ", "f() {\n") if lines[0].startswith(it))])
        return "\n".join([*lines, *(f"echo {file}: ; cat <{file}" for file in self.made), ""])
