"""Scripts made at random with signals and traps on them, for `compare_shells.py`, which tells what they have."""
import random


class Signals:
    """Traps on signals that a shell sends itself, or that its processes send it, and processes that signals end.

    Each signal comes by itself, and a simple command stands behind it in the same list: a real shell takes a trap behind the command
    in which the signal came, and psh where the next place is, and there both are the same. A signal is caught or ignored where it may
    come, and a process is ended by itself or by a process that it waits for, so that nothing depends on the order of turns.

    Left out is what real shells do in several ways: two signals at one place; a signal that a stage of a pipeline sends, or a command
    behind `!`; INT, QUIT and ALRM; `wait` while a signal comes; a trap that is to be taken as `set -e` ends the shell; what `trap` lists
    in a subshell. Some differ in these, and the others agree: in yash an action isn't interrupted by another, that on EXIT neither, a
    status of a signal is 384 more than its number, and `trap` has an order of its own; in yash and mksh an action doesn't leave a loop,
    and in yash no function; in mksh a shell with a trap on EXIT that an action leaves by `exit 3` ends with 0.
    """

    operands = [[]]
    signals = ["HUP", "USR1", "USR2", "TERM"]
    numbers = {"HUP": 1, "USR1": 10, "USR2": 12, "TERM": 15}
    fatal = ["HUP", "KILL", "USR1", "USR2", "PIPE", "TERM"]
    shown = ["echo k $?", "echo k $?", "echo k $? $x", "echo k $i", ": k", "x=k", "true", "cat <a", "count <in", "kill -l 9", 'test "$x"']

    def __init__(self, seed):
        self.pick = random.Random(seed).choice
        self.chance = random.Random(seed + 1).random
        self.count = 0

    # ---- actions
    def action(self):
        """An action that leaves nothing, without single quotes."""
        self.count += 1
        name = f"t{self.count}"
        return self.pick([
            f"echo {name} $?", f"echo {name} $?", f"echo {name} $?; false", f"false; echo {name} $?", f"(exit 5); echo {name} $?",
            f"x={name}; echo $x", f"echo {name} $# $1", f"f {name}", f"f {name}; echo $?", f'eval "echo {name}; false"',
            f"for k in b c; do echo {name} $k; done", f"for k in b c; do echo {name} $k; break; done", f"echo {name} | cat",
            f"x=$(echo {name} $?); echo $x", f"(echo {name}; exit 6)", f"if false; then :; else echo {name} $?; fi",
            f"echo {name}\necho $?",
            f"cat <a; echo {name} $?", f"nosuch 2>/dev/null; echo {name} $?", f"# {name}", f"echo {name} >g; cat <g",
            f"while :; do echo {name}; break; done",
            f"case $? in 0) echo {name} z;; *) echo {name} $?;; esac",
        ])

    def condition(self, signal):
        return self.pick([signal, signal, signal, str(self.numbers[signal])])

    def setting(self, signal):
        """A trap on a signal, which is caught or ignored then."""
        some = [f"trap '{self.action()}' {self.condition(signal)}"] * 5
        some += [f"trap '' {self.condition(signal)}", f"eval \"trap 'echo e $?' {signal}\"", f"trap -- '{self.action()}' {signal}",
                 f"s {signal}"]
        return self.pick(some)

    def renewal(self, signal):
        """An action that sets its own trap anew."""
        return f"trap 'echo first $?; trap \"echo second\" {signal}' {signal}"

    # ---- signals
    def sending(self, signal):
        """A signal to this shell."""
        own = [f"kill -s {signal} $$"] * 4 + [f"kill -{signal} $$", f"kill -{self.numbers[signal]} $$", f"command kill -s {signal} $$"]
        children = [f"(kill -s {signal} $$; exit 3)", f"(kill -s {signal} $$; echo c)", f"x=$(kill -s {signal} $$; echo v; exit 4)",
                    f"true && (kill -s {signal} $$)", f"up {signal}", f"x=$(kill -s {signal} $$)", f"({{ kill -s {signal} $$; }})",
                    f"h() {{ (kill -s {signal} $$); }}\nh",
                    f"if (kill -s {signal} $$); then :; fi"]
        return self.pick(own if self.chance() < 0.6 else children)

    def unit(self, signal):
        """A signal, and a simple command behind it."""
        return f"{self.sending(signal)}\n{self.pick(self.shown)}"

    def within(self, depth):
        """Signals in a compound command of this shell."""
        some = []
        for _ in range(self.pick([1, 1, 2])):
            is_unit = depth == 0 or self.chance() < 0.6
            some.append(self.unit(self.pick(self.signals)) if is_unit else self.within(depth - 1))
        lines = "\n".join(some)
        self.count += 1
        n = f"n{self.count}"
        return self.pick([
            f"{{ {lines}\n}}", f"for i in a b; do {lines}\ndone", f"for i in a b c; do {lines}\ncontinue\necho no\ndone",
            f"for i in a b; do {lines}\nbreak\ndone",
            f"if {lines}\nthen {lines}\nelse echo no $?\nfi", f"if false; then :; else {lines}\nfi",
            f"{n}=\nwhile [ \"${n}\" != aa ]; do {n}=a${n}\n{lines}\ndone",
            f"{n}=\nuntil {lines}\n[ \"${n}\" = aa ]; do {n}=a${n}\ndone", f"case a in b) ;; a) {lines} ;; esac",
            f"eval '{lines}'" if "'" not in lines else f"{{ {lines}\n}}",
            f"g() {{ {lines}\n}}\ng p q\necho g $?", f"{{ {lines}\n}} >f\necho f $?\ncat <f", f"true && {{ {lines}\n}}",
            f"false || {{ {lines}\n}}",
        ])

    # ---- processes
    def apart(self):
        """Signals to a subshell of any kind, by a process that it waits for."""
        signal, action = self.pick(self.signals), self.action()
        if self.chance() < 0.3:
            body = self.pick([f"up {signal}\necho no", f"echo b; up {signal}\necho no",
                              f"trap '{action}' {signal}\ntrap - {signal}\nup {signal}\necho no",
                              f"trap '' {signal}; trap 0 {signal}\nup {signal}\necho no"])
            ending = "l"
        else:
            body = self.pick([
                f"trap '{action}' {signal}\nup {signal}\necho e $?", f"trap '{action}' {signal}\n(up {signal}; exit 7)\necho e $?",
                f"trap '' {signal}\nup {signal}\necho e $?", f"trap 'exit 4' {signal}\nup {signal}\necho no",
                f"trap exit {signal}\nup {signal}\necho no", f"trap 'echo x' EXIT\ntrap 'exit 4' {signal}\nup {signal}\necho no",
                f"trap 'echo x $?' EXIT\ntrap '{action}' {signal}\nup {signal}\necho e",
                f"g() {{ up {signal}; echo g; }}\ntrap '{action}' {signal}\ng\necho e",
                f"trap '{action}' {signal}\nfor i in a b; do up {signal}\necho $i\ndone",
            ])
            ending = "echo s $?"
        return self.pick([f"( {body} )\n{ending}", f"( {body} )\n{ending}", f"x=$({body})\n{ending}\necho $x", f"{{ {body}\n}} | cat",
                          f"( {body} ) >f & wait $!\n{ending}\ncat <f", f"true | {{ {body}\n}}\n{ending}"])

    def ended(self):
        """Processes that signals end."""
        signal, other = self.pick(self.fatal), self.pick(self.fatal)
        return self.pick([
            f"me {signal}\nl", f"me {signal} | cat\necho $?", f"true | me {signal}\nl", f"(me {signal}; l; exit 4)\necho $?",
            f"me {signal} && echo no\necho e", f"me {signal} || echo or",
            f"! me {signal}\necho $?", f"if me {signal}; then echo no; else l; fi", f"x=$(me {signal})\nl", f"me {signal} & wait $!\nl",
            f"me {signal} >/dev/null & p=$!\nme {other} & wait $!\nl\nwait $p\nl",
            f"me {signal} & wait\necho $?", f"(exit 3) & p=$!\nme {signal} >/dev/null & wait $p\necho $?\nwait $!\nl",
            "spin & kill -s KILL $!\nwait $!\nl", "spin & kill -9 $!\nwait\necho $?",
            f"(me {signal})\nl", f"{{ me {signal}; l; }} | cat", f"true && me {signal} & wait $!\nl",
            f"f() {{ me {signal}; return; }}\nf x\nl",
            f"until me {signal}; do l\nbreak\ndone",
        ])

    def listed(self):
        """What built-ins list and refuse."""
        number = self.pick([1, 2, 3, 6, 9, 13, 14, 15])
        return self.pick([f"kill -l {number}", f"kill -l {number + 128}", f"kill -l $((128+{number}))",
                          "kill -s USR1 99999 2>/dev/null || echo no process", "kill 99999 2>/dev/null || echo no process",
                          "kill -0 $$; echo $?",
                          "kill -s 0 $$ && echo there", "trap", "trap", "trap - HUP\ntrap\ntrap 'echo h' HUP", "trap '' USR2\ntrap",
                          "wait 99999\necho $?", "x=$(kill -l 15)\necho $x", "kill -l 9 | cat"])

    def leaving(self):
        """An action that leaves a function or a loop by itself."""
        signal = self.pick(self.signals)
        text = self.pick([f"g() {{ trap 'return 5' {signal}\nkill -s {signal} $$\necho no\n}}\ng\necho g $?",
                          f"g() {{ trap return {signal}\n(kill -s {signal} $$; exit 6)\necho no\n}}\ng\necho g $?",
                          f"trap 'break; echo no' {signal}\nfor i in a b; do kill -s {signal} $$\necho no\ndone\necho $i",
                          f"trap 'continue' {signal}\nfor i in a b; do kill -s {signal} $$\necho no\ndone\necho $i",
                          f"trap 'kill -s USR2 $$; echo outer' USR1\ntrap 'echo inner $?' USR2\nkill -s USR1 $$\necho e",
                          f"{self.renewal(signal)}\nkill -s {signal} $$\necho a\nkill -s {signal} $$\necho b"])
        return f"{text}\n" + "\n".join(self.setting(it) for it in self.signals)

    def last(self):
        """How the script ends."""
        signal = self.pick(self.signals)
        way = self.pick(["", "", f"trap 'exit 3' {signal}\nkill -s {signal} $$\necho no",
                         f"trap exit {signal}\n(kill -s {signal} $$; exit 3)\necho no",
                         f"trap 'echo l; exit' {signal}\nkill -s {signal} $$\necho no", "exit 3", "(exit 4)",
                         f"trap 'exit 6' {signal}\nfor i in a b; do kill -s {signal} $$\necho no\ndone",
                         f"trap 'exit 6' {signal}\nf() {{ kill -s {signal} $$\necho no\n}}\nf", f"kill -s {signal} $$\nexit 5",
                         f"trap '' TERM\nexec me TERM", f"trap 'echo no' USR1\nexec me KILL"])
        return self.pick(["", "", "trap 'echo x $?' EXIT\n", "trap 'echo x' 0\n",
                          f"trap 'echo x; kill -s {signal} $$; echo y' EXIT\n"]) + way

    def script(self):
        self.count = 0
        lines = ["f() { echo f $1 $?; return 4; }", "s() { trap 'echo s $?' $1; }", "l() { n=$?; [ $n = 0 ] && echo 0 || kill -l $n; }"]
        lines += [*(self.setting(it) for it in self.signals)]
        for _ in range(self.pick([2, 3, 3, 4])):
            kind = self.chance()
            if kind < 0.25:
                lines.append(self.unit(self.pick(self.signals)))
            elif kind < 0.5:
                lines.append(self.within(self.pick([0, 0, 1])))
            elif kind < 0.62:
                lines += [self.setting(self.pick(self.signals)), self.unit(self.pick(self.signals))]
            elif kind < 0.76:
                lines.append(self.apart())
            elif kind < 0.86:
                lines.append(self.ended())
            elif kind < 0.94:
                lines.append(self.listed())
            else:
                lines.append(self.leaving())
            lines += self.pick([[], [], ["echo $? $x $i"]])
        return "\n".join([*lines, self.last(), ""])
