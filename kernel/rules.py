"""Changes the model by the differences of Linux that docs/use/LINUX.md lists, each under its name."""
import resource

from model.model import EAGAIN, EBADF, EINVAL, SLOTS, Player, has_bad_tags, registered, submitted

# the kernel's limit, beside the hard limit of open files
SLOTS_OF_LINUX = 1 << 20


class Linux(Player):
    """The model with the differences in `shown`. `met` has those that a play met. `files_allowed` is the hard limit of open files."""

    files_allowed = resource.getrlimit(resource.RLIMIT_NOFILE)[1]

    def __init__(self, files, shown):
        super().__init__(files)
        self.shown, self.met = shown, frozenset()

    def meets(self, name):
        if name not in self.shown:
            return False
        self.met |= {name}
        return True

    def refusal_of_table(self, count, is_bad=False):
        refusal = super().refusal_of_table(count, is_bad)
        largest = min(SLOTS_OF_LINUX, self.files_allowed)
        if self.slots and count == 0 and self.meets("sparse_of_nothing_on_a_table"):
            return -EINVAL
        if not self.slots and SLOTS < count <= largest and self.meets("larger_table"):
            return 0
        return refusal

    def has_counted_all(self):
        return super().has_counted_all() and not self.meets("too_many_registrations")

    def refusal_of_submission(self, requests):
        refusal = super().refusal_of_submission(requests)
        return refusal if refusal and not self.meets(refusal.split(" ")[0].replace("-", "_")) else None

    def left(self, file):
        """Returns a file that is still in the table when the table goes. Linux 6.1 posts no tag for it."""
        return (*file[:2], 0) if file and file[2] and self.meets("file_left_in_the_table_posts_no_tag") else file

    def unregister(self):
        self.slots = [self.left(it) for it in self.slots]
        return super().unregister()

    def end(self):
        self.slots = [self.left(it) for it in self.slots]
        return super().end()

    def open(self, place, file, slot):
        res = super().open(place, file, slot)
        if res < 0 and file in self.names and self.meets("refused_open_opens_its_file"):
            self.closed.append((submitted(place, 0), self.names.index(file), 0))
        return res

    def has_bad_tag(self, listed, tags):
        """Whether an entry has a bad tag. A list of another length than its tags can't be given to the kernel."""
        return has_bad_tags(listed, tags) and len(tags) == len(listed)

    def first_bad(self, listed, tags, least):
        """Returns the place of the first entry that is bad or has a bad tag."""
        return next(nth for nth, it in enumerate(listed) if not least <= it < len(self.names) or it < 0 and tags and tags[nth])

    def register(self, listed, tags=None):
        refusal = super().register(listed, tags)
        if refusal == -EINVAL and self.has_bad_tag(listed, tags):
            at = self.first_bad(listed, tags, -1)
            if listed[at] != -1 and self.meets("bad_entry_in_front_of_a_bad_tag"):
                return -EBADF
        return refusal

    def stops_at_a_bad_entry(self, off, listed, tags=None):
        if self.has_bad_tag(listed, tags) and self.refusal_of_list(off, listed) in (0, -EBADF):
            return self.meets("update_up_to_a_bad_tag")
        return self.refusal_of_list(off, listed, tags) == -EBADF and self.meets("update_up_to_a_bad_entry")

    def up_to_a_bad_entry(self, off, listed, mark_of, tags=None):
        """Applies a list up to a bad entry, whose slot is emptied, or up to a bad tag, whose slot stays as it is."""
        at = self.first_bad(listed, tags, -2)
        self.work_off(off, listed[:at], mark_of, tags)
        if listed[at] in (-1, -2):
            return at or -EINVAL
        self.put(off + at, None)
        return at or -EBADF

    def regupdate(self, off, listed, tags=None):
        if not self.stops_at_a_bad_entry(off, listed, tags):
            return super().regupdate(off, listed, tags)
        if self.has_counted_all():
            return -EAGAIN
        call = self.registrations + 1
        res = self.up_to_a_bad_entry(off, listed, lambda nth: registered(call, nth), tags)
        self.registrations += res > 0
        return res

    def update(self, place, off, listed, first=0):
        if not self.stops_at_a_bad_entry(off, listed):
            return super().update(place, off, listed, first)
        return self.up_to_a_bad_entry(off, listed, lambda nth: submitted(place, nth))
