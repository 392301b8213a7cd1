"""The status of each reply, and the demos."""
import os
import re

from .rooms import DEMOS, LAB, TOP, Trial, commands_of, read, words_of


# A reply of each form, with the exit status of lab.
CODES = {
    0: ["lab 1 2 0", "created A 2 1", "show A out\nnode a pc linux\nend A", "least A 5\nnode a pc1 pc\nend A", "local A 5\nend A", "in A",
        "out A", "more A", "deleted A", "recovered 2 0", "exp A moving 2 1\nfree 0 1", "free 2 2", "planned", "audit 0", "played A 2"],
    10: ["no drill", "no lab", "lab is set", "exists A", "unknown A", "busy A", "not open A", "is in A", "is out A", "is moving A",
         "bad ptop 3 number", "bad A 3 limit", "infeasible A F6 t1", "none A", "gave up A", "full experiments 256", "full swaps 16",
         "full journal 4294960000", "wait B 100 2 0 pc",
         "bad batch 3 range", "in A\nwait B 100 3 2 big pc", "played A 0\ninfeasible A F8 vlans"],
    11: ["trouble A device s1", "failed A out device s1", "played A 1\nfailed A in device s1", "failed A in boot pc1", "failed A out boot pc1 OFF ISUP"],
    12: ["failed A stuck device s1", "played A 0\nfailed A stuck journal", "failed A stuck journal", "recovered 0 1", "down", "stopped",
         "audit 3\nlacks s1 2 100\nstrange s1 1 101\nnode pc1", "unread s1", "audit 1\nnode pc1\nin A"],
    70: ["something new"],
}


class Replies(Trial):
    """Replies of labctl, as lab tells and weighs them."""

    def test_codes(self):
        """Each reply leads to its exit status, and each reply of the manual is among them."""
        room = self.room
        fake = room.file("fake", "#!/bin/sh\ncat > /dev/null\nprintf '%s\\n' \"$REPLY\"\n")
        os.chmod(fake, 0o755)
        os.mkdir(f"{room.path}/lab")
        room.file("lab/journal.a", "")
        for code, replies in CODES.items():
            for reply in replies:
                ran = room.run("recover", folder="lab", LABCTL=fake, REPLY=reply)
                room.same(reply, (ran.returncode, ran.stdout), (code, f"{reply}\n"))
        known = {reply.split(" ")[0] for replies in CODES.values() for reply in replies}
        section = read("docs/MANUAL.md").partition("\n## Commands\n")[2].partition("\n### What a swap does")[0]
        for row in re.findall(r"^\| (.*?) \| .*\|$", section.partition("| Reply |")[2], re.M):
            for form in re.findall(r"`([a-z][^`]*)`", row):
                if form.split(" ")[0] not in known | {"tag", "end", "lacks", "strange", "node"}:
                    room.found.append(f"the manual's reply {form} is not among those tried")
        for code in range(1, 7):
            fake = room.file(f"fake{code}", f"#!/bin/sh\ncat > /dev/null\nexit {code}\n")
            os.chmod(fake, 0o755)
            room.same(f"code {code}", room.run("status", folder="lab", LABCTL=fake).returncode, code)

    def test_demos(self):
        """The demos give the replies of the program: in memory, over a folder, and command by command."""
        room = self.room
        for demo in DEMOS:
            script, file = read(f"demo/{demo}.lab"), f"{TOP}/demo/{demo}.lab"
            room.same(f"{demo} in memory", room.run(LAB, "-m", "run", file).stdout, room.labctl(script).stdout)
            wanted = room.labctl(script, "--dir", f"{room.path}/{demo}-1").stdout
            room.same(f"{demo} over a folder", room.run("run", file, folder=f"{demo}-2").stdout, wanted)
            commands = [it for it in commands_of(script) if it[0][0] not in ("fail", "stop")]
            if any(words[0] in ("open", "turn", "finish") for words, _ in commands):
                continue
            last = commands[-1]
            if demo == "refused":
                room.same("its last line is no command", last[0], ["swapin", "B"])
                commands.pop()
            plain = "".join(" ".join(words) + "\n" + "".join(blocks) for words, blocks in commands)
            told = "".join(room.run(*words_of(room, words, blocks), folder=f"{demo}-4").stdout for words, blocks in commands)
            room.same(f"{demo} by commands", told, room.labctl(plain, "--dir", f"{room.path}/{demo}-3").stdout)
