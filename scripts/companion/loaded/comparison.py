"""Compares a guest's memory with what the program says, page for page."""
import shutil

from companion import program
from companion.loaded import copying, findings, guest_machine, output, tell
from companion.memory_files import Memory
from companion.numbers import PAGE, address, counted
from companion.refusals import Wrong


def run(*words):
    """Runs the program, and tells what it says: whether its status is 0, and the text."""
    status, out, said = program.run(list(words))
    for line in (out + said).splitlines():
        print(f"    {line}")
    tell.step(f"{words[0]}: status {status}")
    return status == 0, out


def fault_of(folder, found):
    """What tells that a list is spoiled: `check`, the regions that `exec` tests, or `loaded` itself; None where none does."""
    files = [f"{folder}/memory.kxmem", f"{folder}/record"]
    status, out, _ = program.run(["check", *files])
    if status:
        return f"check says {out.strip()}"
    if found.touched:
        number, page, what = found.touched[0]
        return f"loaded says word {number} touches {what}, {address(page * PAGE)}"
    told = program.run(["exec", *files, f"{folder}/out.kxmem"])[1]
    return "exec says regions differ" if "regions differ" in told else None


def differing(physical, pages, out):
    """The pages that memory does not have as a memory file does."""
    return [page for page in pages if physical.page(page) != out.page(page)]


class Moment:
    """The moment at which the code in the control page begins: no other code of the old kernel runs any more. All of RAM is
    run from there by the program, with context preserved where the guest's kernel runs the list by exchanges."""

    def __init__(self, story):
        self.story, self.guest, self.found = story, story.guest, story.found
        symbols, control = story.kernel.symbols, self.found.image.control * PAGE
        at = control + symbols["identity_mapped"] - copying.start_of(story.kernel)
        story.stub.go_to(at, lambda: any(cpu.rip == at and cpu.level == 0 for cpu in self.guest.cpus()), story.given.seconds)
        self.path = f"{story.folder}/moment"
        shutil.copyfile(self.guest.memory, f"{story.folder}/ram.moment")
        self.physical = guest_machine.physical(f"{story.folder}/ram.moment")
        tell.step(f"the guest is at {address(at)}, where the code in the control page begins")
        self.kernel = story.kernel.over(self.physical)
        now = findings.find(self.kernel, story.is_crash, story.given.loader)
        output.write(self.path, self.kernel, now, ())
        output.write_memory(f"{self.path}/memory.kxmem", self.physical, self.pages())
        run("check", f"{self.path}/memory.kxmem", f"{self.path}/record")
        if not run("exec", f"{self.path}/memory.kxmem", f"{self.path}/record", f"{self.path}/out.kxmem")[0]:
            raise Wrong("the list that was accepted from the dump is not accepted at this moment")

    def pages(self):
        return [page for start, _, _, size in self.physical.parts for page in range(start // PAGE, (start + size) // PAGE)]

    def compare(self):
        """Compares all of RAM: how many pages, and how many of them differ."""
        pages, out = self.pages(), Memory(f"{self.path}/out.kxmem")
        differ = differing(self.guest.physical(), pages, out)
        tell.step(f"{counted(len(pages), 'page')} of RAM compared with a run from that moment: {len(differ)} differ"
                  + "".join(f"; {self.told(page, out)}" for page in differ[:8]))
        return len(pages), len(differ)

    def told(self, page, out):
        """A page that differs: what it is to the image, and where in it the words are that differ."""
        found, wanted = self.guest.physical().page(page), out.page(page)
        words = [f"{at:#x}" for at in range(0, PAGE, 8) if found[at : at + 8] != wanted[at : at + 8]]
        what = self.found.image.own.get(page, "none of the image")
        return f"{address(page * PAGE)} ({what}), its words at {', '.join(words[:8])}"
