#!/usr/bin/env python3
"""Tries what stands around the program as a user would: man page, completions, syntax files, the
installation, the archive, and what docs/CI.md shows.

Usage: tests/around.py BINARY

Each part asks the program itself for its words. A part whose tool isn't on this machine is left out
and named: `man`, `bash`, `zsh`, `fish`, `vim`, `git`. `make shown` runs it.
"""
import json
import os
import pty
import re
import select
import shlex
import shutil
import time
from pathlib import Path

from program import EXAMPLES, ROOT, Tester, guests, run
from simulator import PARTS

SHARE = ROOT / "share"

# The classes of tokens, by the language's grammar.
DECLARATIONS = "var mutex cond sem thread".split()
STEPS = [word for word, parts in PARTS.items() if "o" in parts]
LOCALS = "set assert".split()
CONTROLS = "if else repeat leave".split()
TOKEN = re.compile(r"(?P<comment>#.*)|(?P<number>[0-9]+)|(?P<word>[A-Za-z_][A-Za-z0-9_]*)"
                   r"|(?P<operator>==|!=|<=|>=|[<>+*=-])|(?P<mark>[{};])|(?P<blank>\s+)")
TEXTMATE = {"comment": "comment.line.number-sign.guest", "number": "constant.numeric.decimal.guest",
            "name": "variable.other.guest", "operator": "keyword.operator.guest",
            "mark": "punctuation.guest", "declaration": "storage.type.guest",
            "step": "support.function.step.guest", "local": "keyword.other.local.guest",
            "control": "keyword.control.guest"}
VIM = {"comment": "guestComment", "number": "guestNumber", "name": "guestName",
       "operator": "guestOperator", "mark": "guestMark", "declaration": "guestDeclaration",
       "step": "guestStep", "local": "guestLocal", "control": "guestControl"}


def tokens(line):
    """Each token of a line as (its first byte, the byte after it, its class); blanks are none."""
    for found in TOKEN.finditer(line):
        kind = found.lastgroup
        if kind == "word":
            kind = next((name for name, words in (("declaration", DECLARATIONS), ("step", STEPS),
                                                  ("local", LOCALS), ("control", CONTROLS))
                         if found.group() in words), "name")
        if kind != "blank":
            yield found.start(), found.end(), kind

# What stands in the place of `rt`: `rt try --data NAME=FILE -- WORDS` runs the program on a copy of the file.
STAND_IN = """#!/bin/sh
name=${3%%=*}; there=$(mktemp -d) && mkdir -p "$there/$(dirname "$name")" && cp "${3#*=}" "$there/$name" || exit 9
shift 4
(cd "$there" && ctxbound "$@"); status=$?
rm -r "$there"
printf 'checked: ended status=%s\\nrun=ended status=%s\\n' $status $status >&2
exit $status
"""


class Around(Tester):
    def __init__(self, given, folder):
        super().__init__(given, folder)
        (folder / "bin").mkdir()
        (folder / "bin/ctxbound").symlink_to(self.binary)
        self.environment = dict(os.environ, LC_ALL="C", MANPAGER="cat", MANWIDTH="100", MANOPT="",
                                PATH="%s:%s" % (folder / "bin", os.environ["PATH"]))

    def run(self, words, **more):
        return run(words, **{"seconds": self.seconds, "env": self.environment, **more})

    def help(self, *command):
        return self.run([self.binary, *command, "--help"]).err

    def commands(self):
        listed = self.help().split("Commands:")[1].split("\n\n")[0]
        return re.findall(r"^  ([a-z]+)", listed, re.MULTILINE)

    def options(self, *command):
        return set(re.findall(r"^ .*?(--[a-z]+(?:-[a-z]+)*)", self.help(*command).split("Options:")[1]
                              .split("\n\n")[0], re.MULTILINE))

    # ---- the man page

    def man_page(self):
        if not self.has("man"):
            return
        done = self.run(["man", "--warnings", "-l", SHARE / "man" / "ctxbound.1"])
        self.expect("man warns", done.status == 0 and not done.err, done.err)
        page = re.sub(r".\x08", "", done.out)
        words = set(self.commands()) | self.options() | {"-h", "-V"}
        for command in self.commands():
            if command != "help":
                words |= self.options(command)
                words |= set(re.findall(r"[<[]([A-Z]+)[]>]", self.help(command)))
        for word in sorted(words):
            self.expect("the man page lacks " + word,
                       re.search(r"(?<![\w-])%s(?![\w-])" % re.escape(word), page))
        for status in "01234":
            self.expect("the man page lacks status " + status,
                       re.search(r"^ +%s  " % status, page, re.MULTILINE))

    # ---- completions

    def completions(self, shell, ask):
        """Asks for a command, for the options of each, and for a file."""
        if not self.has(shell):
            return
        self.expect(shell + ": commands", set(self.commands()) <= ask(["ctxbound", ""]),
                   ask(["ctxbound", ""]))
        for command in self.commands():
            if command == "help":
                continue
            offered = {word for word in ask(["ctxbound", command, "--"]) if word.startswith("--")}
            self.expect("%s: %s --" % (shell, command), offered == self.options(command),
                       sorted(offered), sorted(self.options(command)))
            files = ask(["ctxbound", command, "lock_order"])
            wanted = {"lock_order.guest", "lock_order_fixed.guest"}
            self.expect("%s: %s FILE" % (shell, command), wanted <= files, files)
            more = ask(["ctxbound", command, "--limit", "9", "first.guest", "lock_order"])
            is_taken = command in ("check", "suite", "join")
            self.expect("%s: %s FILE and another word" % (shell, command),
                       wanted <= more if is_taken else not wanted & more, more)

    def ask_bash(self, words):
        script = ('source "$1"; shift; COMP_WORDS=("$@"); COMP_CWORD=$(($# - 1)); _ctxbound; '
                  'printf "%s\\n" "${COMPREPLY[@]}"')
        done = self.run(["bash", "-c", script, "bash", SHARE / "completions" / "ctxbound.bash"] + words,
                        cwd=ROOT / "examples")
        return set(done.out.split())

    def ask_fish(self, words):
        script = 'source $argv[1]; complete -C "$argv[2]"'
        done = self.run(["fish", "--no-config", "-c", script, SHARE / "completions" / "ctxbound.fish",
                         " ".join(words)], cwd=ROOT / "examples")
        return {line.split("\t")[0] for line in done.out.splitlines()}

    def ask_zsh(self, words):
        """What zsh adds as matches, told by a `compadd` that prints them."""
        folder = self.empty()
        told = folder / "told"
        setup = folder / "setup"
        setup.write_text(
            "PS1=''; fpath=(%s $fpath); autoload -Uz compinit; compinit -u -D\n"
            "bindkey -e; bindkey '^I' complete-word; setopt no_beep\n"
            "compadd() {\n"
            "  if [[ ${@[1,(i)(-|--)]} == *-(O|A|D)\\ * ]]; then builtin compadd \"$@\"; return; fi\n"
            "  local -a hits; builtin compadd -A hits \"$@\"; print -l -- $hits >> %s\n"
            "}\n"
            "finished() { print done >> %s.end; zle kill-whole-line }\n"
            "zle -N finished; bindkey '^X' finished\n"
            % tuple(shlex.quote(str(path)) for path in (SHARE / "completions", told, told)))
        return self.in_terminal(["zsh", "-f", "-i"], setup, words, told)

    def in_terminal(self, shell, setup, words, told):
        child, terminal = pty.fork()
        if child == 0:
            os.chdir(ROOT / "examples")
            os.environ["TERM"] = "dumb"
            os.execvp(shell[0], shell)
        end = Path(str(told) + ".end")
        os.write(terminal, ("source %s\n%s\t\x18" % (shlex.quote(str(setup)), " ".join(words))).encode())
        stop = time.time() + self.seconds
        while not end.exists() and time.time() < stop:
            if select.select([terminal], [], [], 0.1)[0]:
                try:
                    os.read(terminal, 65536)
                except OSError:
                    break
        os.kill(child, 9)
        os.waitpid(child, 0)
        os.close(terminal)
        return set(told.read_text().split("\n")) if told.exists() else set()

    # ---- syntax files

    def textmate(self):
        """Runs the grammar over all examples: of the patterns the one that matches first counts, and of
        those that match at one place the one that stands first."""
        package = json.loads((SHARE / "vscode" / "package.json").read_text())
        entry = package["contributes"]["grammars"][0]
        language = package["contributes"]["languages"][0]
        self.expect("the package's files", (SHARE / "vscode" / entry["path"]).is_file()
                   and (SHARE / "vscode" / language["configuration"]).is_file()
                   and entry["language"] == language["id"] and language["extensions"] == [".guest"])
        grammar = json.loads((SHARE / "vscode" / entry["path"]).read_text())
        self.expect("the grammar's scope", grammar["scopeName"] == entry["scopeName"])
        patterns = [(re.compile(each["match"]), each["name"]) for each in grammar["patterns"]]
        for path in guests("examples", "examples/real"):
            odd = []
            for number, line in enumerate(path.read_text().split("\n"), 1):
                found, place = [], 0
                while True:
                    hits = [(hit.start(), order, hit, name) for order, (pattern, name)
                            in enumerate(patterns) for hit in [pattern.search(line, place)] if hit]
                    if not hits:
                        break
                    _, _, hit, name = min(hits, key=lambda each: each[:2])
                    found.append((hit.start(), hit.end(), name))
                    place = hit.end()
                wanted = [(start, end, TEXTMATE[kind]) for start, end, kind in tokens(line)]
                if found != wanted:
                    odd.append((number, found, wanted))
            self.expect("TextMate: " + path.name, not odd, *odd[:3])

    def has_vim(self, feature):
        """Whether there is a Vim that has this, which small ones haven't."""
        is_there = self.has("vim") and feature in self.run(["vim", "--version"]).out
        self.left_out += ["vim's " + feature] * (not is_there)
        return is_there

    def by_vim(self, script, *lines, **more):
        """Vim does what these lines say."""
        script.write_text("\n".join([*lines, "qall!"]) + "\n")
        self.run(["vim", "-n", "-i", "NONE", "-es", "-u", script], **more)

    def vim(self):
        if not self.has_vim("+syntax"):
            return
        folder = self.empty()
        classes = folder / "classes"
        self.by_vim(
            folder / "script.vim", "set nocompatible",
            "let &rtp = escape(%s, ' ,\\') . ',' . $VIMRUNTIME" % json.dumps(str(SHARE / "vim")),
            "filetype on", "syntax on", "let told = []",
            "for file in %s" % json.dumps([str(path) for path in guests("examples", "examples/real")]),
            "  execute 'edit' fnameescape(file)",
            "  for row in range(1, line('$'))",
            "    let names = map(range(1, len(getline(row))), 'synIDattr(synID(row, v:val, 1), \"name\")')",
            "    call add(told, join(names, ','))",
            "  endfor", "endfor",
            "call writefile(told, %s)" % json.dumps(str(classes)))
        told = iter(classes.read_text().split("\n") if classes.exists() else [])
        for path in guests("examples", "examples/real"):
            odd = []
            for number, line in enumerate(path.read_text().split("\n")[:-1], 1):
                names = next(told, "").split(",")
                for start, end, kind in tokens(line):
                    here = {name if name != "guestExpect" else "guestComment"
                            for name in names[start:end]}
                    if here != {VIM[kind]}:
                        odd.append((number, line[start:end], here))
            self.expect("Vim: " + path.name, not odd, *odd[:3])

    # ---- what editors read of `check --short`

    def short_lines(self, folder):
        """A warned and a refused guest, and what is said of them: (file, line, column, severity) each."""
        warned, refused = folder / "warned one.guest", folder / "refused.guest"
        warned.write_text("var x;\nthread A { store x 1; }\n")
        refused.write_text("var x;\nthread A { store x 1 }\n")
        return [(str(warned), 1, 5, "warning"), (str(refused), 2, 22, "error")]

    def problem_matcher(self):
        package = json.loads((SHARE / "vscode" / "package.json").read_text())["contributes"]
        pattern = package["problemMatchers"][0]["pattern"]
        tasks = json.loads((SHARE / "vscode" / "tasks.json").read_text())["tasks"]
        self.expect("a task uses the problem matcher",
                   "$" + package["problemMatchers"][0]["name"] in [task["problemMatcher"] for task in tasks])
        folder = self.empty()
        wanted = self.short_lines(folder)
        lines = self.run([self.binary, "check", "--short", *(each[0] for each in wanted)]).out
        found = [re.match(pattern["regexp"], line) for line in lines.splitlines()]
        found = [(hit[pattern["file"]], int(hit[pattern["line"]]), int(hit[pattern["column"]]),
                  hit[pattern["severity"]]) for hit in found if hit]
        self.expect("the problem matcher finds each line", found == wanted, found, wanted)

    def snippets(self):
        package = json.loads((SHARE / "vscode" / "package.json").read_text())["contributes"]
        snippets = json.loads((SHARE / "vscode" / package["snippets"][0]["path"]).read_text())
        words = set(DECLARATIONS) | set(STEPS) | set(LOCALS) | set(CONTROLS) - {"else"}
        self.expect("a snippet for each statement and declaration", set(snippets) == words,
                   set(snippets) ^ words)

    def vim_edits(self):
        """Vim's `:make` fills the quickfix list, and its indents leave each example as it is."""
        if not self.has_vim("+quickfix"):
            return
        folder = self.empty()
        script, told, copy = (folder / name for name in ("script.vim", "told", "copy.guest"))
        # Vim doesn't quote the names of its own temporary files in what `:make` runs.
        environment = dict(self.environment, TMPDIR="/tmp")
        head = ["set nocompatible", "set rtp=%s,$VIMRUNTIME" % str(SHARE / "vim").replace(" ", "\\ "),
                "filetype plugin indent on"]
        for file, line, column, severity in self.short_lines(folder):
            self.by_vim(
                script, *head, "execute 'edit' fnameescape(%s)" % json.dumps(file), "silent make",
                "let all = filter(getqflist(), 'v:val.valid')",
                "call writefile(map(all, 'v:val.lnum . \" \" . v:val.col . \" \" . v:val.type'), %s)"
                % json.dumps(str(told)), env=environment)
            wanted = "%d %d %s\n" % (line, column, severity[0])
            self.expect("Vim's :make: " + severity, told.exists() and told.read_text() == wanted,
                       told.exists() and told.read_text(), wanted)
        for path in guests("examples", "examples/real"):
            copy.write_text(path.read_text())
            self.by_vim(script, *head, "execute 'edit' fnameescape(%s)" % json.dumps(str(copy)), "normal gg=G", "write")
            self.expect("Vim's indents: " + path.name, copy.read_text() == path.read_text())

    # ---- the first runs, installation and archive

    def make(self, *words, **more):
        return self.run(["make", "-C", ROOT, "PROGRAM=" + self.binary, *words], **more)

    def first_runs(self):
        """`make run` and `make try` ask for what they should of a copy of any guest. In place of `rt try`, which
        compiles `ctxbound_first`, the program runs."""
        if not self.has("make"):
            return
        example = EXAMPLES / "first.guest"
        folder = self.empty()
        self.write(folder / "rt", STAND_IN).chmod(0o755)
        shutil.copy(example, folder / "my guest")
        environment = dict(self.environment, PATH="%s:%s" % (folder, self.environment["PATH"]))
        for words, asked in (
                (["run"], ["explain", "examples/lock_order.guest"]),
                (["try", "GUEST=examples/first.guest"], ["explain", "examples/first.guest"]),
                (["try", "GUEST=examples/first.guest", "SCHEDULE=0,1"], ["explain", "examples/first.guest", "0,1"]),
                (["try", "GUEST=%s/my guest" % folder, "COMMAND=explore"], ["explore", example, "--trace"]),
                (["try", "GUEST=%s/my guest" % folder, "COMMAND=replay", "SCHEDULE=0x2,1"],
                 ["replay", example, "0x2,1"])):
            done, wanted = self.make(*words, env=environment), self.run([self.binary, *asked], cwd=ROOT)
            told = wanted.out + wanted.err + "[status %d]\n" % wanted.status * (wanted.status > 0)
            self.expect("make " + " ".join(words), wanted.out and told in done.out, done.out)
        for words in ([], ["GUEST=%s" % example, "COMMAND=replay"], ["GUEST=%s" % example, "COMMAND=verify"],
                      ["GUEST=%s" % example, "COMMAND=explore", "SCHEDULE=0"], ["GUEST=gone"]):
            done = self.make("try", *words, env=environment)
            self.expect("make try %s is refused" % " ".join(words), done.status != 0 and not done.out
                       .count("Compiling"), done.out)

    def installation(self):
        if not self.has("make"):
            return
        folder = self.empty()
        done = self.make("install", "DESTDIR=%s" % folder, "PREFIX=/usr")
        files = {str(path.relative_to(folder)) for path in folder.rglob("*") if path.is_file()}
        self.expect("make install", done.status == 0, done.err)
        for name in ("bin/ctxbound", "share/man/man1/ctxbound.1",
                     "share/bash-completion/completions/ctxbound",
                     "share/zsh/site-functions/_ctxbound",
                     "share/fish/vendor_completions.d/ctxbound.fish",
                     "share/vim/vimfiles/syntax/guest.vim",
                     "share/ctxbound/vscode/package.json",
                     "share/ctxbound/examples/first.guest"):
            self.expect("installed: " + name, "usr/" + name in files)
        done = self.run([folder / "usr/bin/ctxbound", "replay",
                         folder / "usr/share/ctxbound/examples/first.guest", "0,1,0"])
        self.expect("the installed program runs", done.status == 1 and "kind failed" in done.out)
        done = self.make("uninstall", "DESTDIR=%s" % folder, "PREFIX=/usr")
        left = list(folder.iterdir())
        self.expect("make uninstall leaves nothing", done.status == 0 and not left, left)
        done = self.make("uninstall", "DESTDIR=%s" % folder, "PREFIX=/usr")
        self.expect("make uninstall says where nothing is", done.status != 0
                   and "isn't there" in done.err, done.err)

    def archive(self):
        """Makes the archive, unpacks it in an empty folder and runs its program there."""
        if not self.has("make"):
            return None
        done = self.make("dist")
        named = re.search(r"^The archive is (build/ctxbound-[0-9.]+-linux-x86_64\.tar\.gz)$", done.out, re.M)
        self.expect("make dist", done.status == 0 and named, done.err)
        if not named:
            return None
        archive = ROOT / named[1]
        folder = self.empty()
        self.run(["tar", "-xzf", archive, "-C", folder, "--strip-components=1"])
        for name in ("share/man/man1/ctxbound.1", "share/ctxbound/vscode/package.json",
                     "share/ctxbound/machines/search_by_parallel.sh",
                     "share/vim/vimfiles/syntax/guest.vim", "share/zsh/site-functions/_ctxbound",
                     "README.md", "CHANGELOG.md"):
            self.expect("in the archive: " + name, (folder / name).is_file())
        readme = (folder / "README.md").read_text()
        for page in re.findall(r"share/doc/ctxbound/\w+\.md", readme):
            self.expect("a page that the archive's README names: " + page, (folder / page).is_file())
        for page in sorted(folder.rglob("share/doc/ctxbound/*.md")):
            for link in re.findall(r"\]\(([^)#:]+)(?:#[^)]*)?\)", page.read_text(encoding="utf-8")):
                self.expect("a link of %s: %s" % (page.name, link), (page.parent / link).exists())
        done = self.run(re.search(r"^ +(bin/ctxbound explain .*)$", readme, re.M)[1].split(), cwd=folder)
        self.expect("the archive's README leads to an explanation",
                   done.status == 1 and "Why nobody can go on" in done.out, done.err)
        done = self.run([folder / "install.sh", folder / "in a place"], cwd=folder)
        self.expect("install.sh", done.status == 0
                   and (folder / "in a place/share/man/man1/ctxbound.1").is_file(), done.err)
        done = self.run([folder / "in a place/bin/ctxbound", "--version"])
        self.expect("what install.sh installed runs", "ctxbound " in done.out + done.err)
        done = self.run([folder / "bin/ctxbound", "suite", "share/ctxbound/examples"], cwd=folder)
        self.expect("the archive's program runs", done.status == 0, done.out)
        return archive

    # ---- docs/CI.md

    def ci(self, archive):
        text = (ROOT / "docs" / "CI.md").read_text()
        blocks = dict(re.findall(r"^```(make|sh|yaml)\n(.*?)^```$", text, re.MULTILINE | re.DOTALL))
        self.expect("docs/CI.md has a rule, a hook and a workflow", sorted(blocks) == ["make", "sh", "yaml"])
        bad = "var x;\nthread A { store x 1; store x 0; }\nthread B { load r x; assert r == 0; }\n"
        folder = self.empty()
        environment = dict(self.environment, HOME=str(folder), GITHUB_PATH=str(folder / "path"), GIT_CONFIG_NOSYSTEM="1")
        guest = self.write(folder / "models/flag.guest", "# expect: bad\n" + bad)
        (folder / "Makefile").write_text(blocks["make"])
        done = self.run(["make", "models"], cwd=folder, env=environment)
        self.expect("the rule passes", done.status == 0, done.out, done.err)
        guest.write_text("# expect: clean\n" + bad)
        self.expect("the rule refuses", self.run(["make", "models"], cwd=folder, env=environment).status != 0)
        guest.write_text("# expect: bad\n" + bad)
        self.hook(folder, environment, blocks["sh"], guest, bad)
        self.workflow(folder, environment, blocks["yaml"], archive)

    def hook(self, there, environment, hook, guest, bad):
        if not self.has("git"):
            return

        def git(*words):
            return self.run(["git", "-c", "user.name=A", "-c", "user.email=a@b", *words], cwd=there,
                            env=environment).status == 0
        self.expect("a repository", git("init", "-q"))
        path = there / ".git" / "hooks" / "pre-commit"
        path.parent.mkdir(exist_ok=True)
        path.write_text(hook)
        path.chmod(0o755)
        self.expect("the hook lets a commit pass", git("add", "models") and git("commit", "-qm", "one"))
        (there / "notes").write_text("nothing of a guest\n")
        self.expect("the hook lets a commit without guests pass",
                   git("add", "notes") and git("commit", "-qm", "two"))
        guest.write_text("# expect: clean\n" + bad)
        self.expect("the hook refuses a commit", git("add", "models") and not git("commit", "-qm", "three"))
        guest.write_text("# expect: bad\n" + bad)
        self.expect("the hook looks at what is staged", not git("commit", "-qm", "four"))

    def workflow(self, there, environment, workflow, archive):
        steps = re.findall(r"^      - run: (.*)$", workflow, re.MULTILINE)
        if archive is None or not self.check_steps(steps):
            return
        (there / "tools").mkdir()
        shutil.copy(archive, there / "tools")
        for step in steps:
            path = there / "path"
            added = path.read_text().splitlines() if path.exists() else []
            now = dict(environment, PATH=":".join(added + ["/usr/bin", "/bin"]))
            done = self.run(["sh", "-e", "-c", step], cwd=there, env=now)
            self.expect("the workflow: " + step, done.status == 0, done.err)

    def check_steps(self, steps):
        self.expect("the workflow has its steps", len(steps) == 4, steps)
        return len(steps) == 4

    def test(self):
        self.man_page()
        for shell, ask in (("bash", self.ask_bash), ("fish", self.ask_fish), ("zsh", self.ask_zsh)):
            self.completions(shell, ask)
        for test in (self.textmate, self.vim, self.problem_matcher, self.snippets, self.vim_edits, self.first_runs, self.installation):
            test()
        self.ci(self.archive())


if __name__ == "__main__":
    Around.main()
