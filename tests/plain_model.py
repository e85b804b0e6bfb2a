"""A plain model of a module's ports, which shares nothing with the programs: what entries show, lawful or not, and the
standard's reply to a call after them."""
import re

MODES = ["IDLE", "COLD_START", "WARM_START", "NORMAL"]


class Module:
    """A module of partitions with ports, by name; each port is (name, kind, direction, channel, refresh)."""

    def __init__(self, partitions, channels):
        self.partitions, self.channels = partitions, channels

    def text(self):
        lines = []
        for name, ports in self.partitions.items():
            lines.append(f'[[partition]]\nname = "{name}"')
            for port, kind, direction, channel, refresh in ports:
                lines.append(f'[[partition.port]]\nname = "{port}"\nkind = "{kind}"\ndirection = "{direction}"')
                lines.append(f'channel = "{channel}"' + (f"\nrefresh = {refresh}" if kind == "sampling" else ""))
        for name, (kind, size, depth) in self.channels.items():
            lines.append(f'[[channel]]\nname = "{name}"\nkind = "{kind}"\nsize = {size}')
            lines += [f"depth = {depth}"] if kind == "queuing" else []
        return "\n".join(lines) + "\n"


class Shown:
    def __init__(self, module):
        self.module = module
        self.mode = dict.fromkeys(module.partitions, "COLD_START")
        self.created, self.last, self.sample = set(), {}, {}
        self.doubted = set()
        self.waiting = {name: [] for name in module.channels}

    def copy(self):
        other = Shown(self.module)
        other.mode, other.created = dict(self.mode), {*self.created}
        other.last, other.sample = dict(self.last), dict(self.sample)
        other.waiting = {name: [*messages] for name, messages in self.waiting.items()}
        return other

    def port(self, partition, number, kind):
        ports = self.module.partitions[partition]
        if 1 <= number <= len(ports) and (partition, number) in self.created and ports[number - 1][1] == kind:
            return ports[number - 1]
        return None

    def named(self, partition, name, kind):
        for number, port in enumerate(self.module.partitions[partition], 1):
            if port[0] == name and port[1] == kind:
                return number, port
        return None

    def create(self, partition, kind, name, asked):
        found = self.named(partition, name, kind)
        if not found:
            return "INVALID_CONFIG"
        number, (_, _, direction, channel, refresh) = found
        _, size, depth = self.module.channels[channel]
        way = ["source", "destination"].index(direction)
        if (partition, number) in self.created:
            return "NO_ACTION"
        if kind == "queuing" and (asked[:3] != [size, depth, way] or asked[3] > 1):
            return "INVALID_CONFIG"
        if kind == "sampling" and asked != [size, way, refresh]:
            return "INVALID_CONFIG"
        return "INVALID_MODE" if self.mode[partition] == "NORMAL" else f"NO_ERROR id {number}"

    def put(self, partition, kind, number, message):
        port = self.port(partition, number, kind)
        if not port or not message:
            return "INVALID_PARAM"
        _, size, depth = self.module.channels[port[3]]
        if len(message) // 2 > size:
            return "INVALID_CONFIG"
        if port[2] != "source":
            return "INVALID_MODE"
        return "NOT_AVAILABLE" if kind == "queuing" and len(self.waiting[port[3]]) == depth else "NO_ERROR"

    def take(self, partition, at, kind, number):
        port = self.port(partition, number, kind)
        if not port:
            return "INVALID_PARAM"
        if port[2] == "source":
            return "INVALID_MODE"
        if kind == "queuing":
            waiting = self.waiting[port[3]]
            return f"NO_ERROR message {waiting[0]}" if waiting else "NOT_AVAILABLE"
        if port[3] not in self.sample:
            return "NO_ACTION"
        message, written = self.sample[port[3]]
        return f"NO_ERROR message {message} {'VALID' if at <= written + port[4] else 'INVALID'}"

    def status(self, partition, kind, number):
        port = self.port(partition, number, kind)
        if not port:
            return "INVALID_PARAM"
        _, size, depth = self.module.channels[port[3]]
        way = port[2].upper()
        if kind == "queuing":
            return f"NO_ERROR waiting {len(self.waiting[port[3]])} depth {depth} size {size} {way} processes 0"
        return f"NO_ERROR refresh {port[4]} size {size} {way} last {self.last.get((partition, number), 'INVALID')}"

    def set_mode(self, partition, number):
        if number > 3:
            return "INVALID_PARAM"
        present, wanted = self.mode[partition], MODES[number]
        if wanted == present == "NORMAL":
            return "NO_ACTION"
        return "INVALID_MODE" if (present, wanted) == ("COLD_START", "WARM_START") else "NO_ERROR"

    def reply(self, at, partition, call, *words):
        if self.mode[partition] == "IDLE":
            return "not made"
        kind = "sampling" if "sampling" in call or call in ("read", "write") else "queuing"
        if call.startswith("create"):
            return self.create(partition, kind, words[0], [*map(int, words[1:])])
        if call.endswith("-id"):
            found = self.named(partition, words[0], kind)
            return f"NO_ERROR id {found[0]}" if found and (partition, found[0]) in self.created else "INVALID_CONFIG"
        number = int(words[0])
        if call in ("send", "write"):
            return self.put(partition, kind, number, words[1].replace("-", ""))
        if call in ("receive", "read"):
            return self.take(partition, at, kind, number)
        if call.endswith("-status"):
            return self.status(partition, kind, number)
        if call == "mode":
            return self.set_mode(partition, number)
        port = self.port(partition, number, kind)
        return "INVALID_PARAM" if not port else "INVALID_MODE" if port[2] == "source" else "NO_ERROR"

    def add(self, at, partition, call, words, reply):
        """What an entry shows, lawful or not: the first reply that departs is a mistake of the log, and what departs while
        the same port or mode is doubted is believed, as is a message that waits and is received in place of another."""
        standard = self.reply(at, partition, call, *words)
        subject = self.subject(partition, call, words, reply, standard)
        if reply == standard:
            self.follow(at, partition, call, words, reply)
            self.doubted.discard(subject)
            return
        if subject in self.doubted or self.receives_later(partition, call, words, reply, standard):
            self.believe(at, partition, call, words, reply)
        else:
            self.follow(at, partition, call, words, standard)
        self.doubted |= {subject} - {None}

    def number_about(self, partition, call, words):
        """The number of the configured port of the call's kind that a call is about, if there is one."""
        kind = "sampling" if "sampling" in call or call in ("read", "write") else "queuing"
        if call == "mode":
            return None
        if call.startswith("create") or call.endswith("-id"):
            return (self.named(partition, words[0], kind) or [None])[0]
        number, ports = int(words[0]), self.module.partitions[partition]
        return number if 1 <= number <= len(ports) and ports[number - 1][1] == kind else None

    def subject(self, partition, call, words, *replies):
        """What an entry is about: the partition's mode, a port, or nothing."""
        of_mode = ["not made", *["INVALID_MODE"] * call.startswith("create")]
        if call == "mode" or any(it in of_mode for it in replies):
            return partition, "mode"
        number = self.number_about(partition, call, words)
        return (partition, number) if number else None

    def receives_later(self, partition, call, words, reply, standard):
        """Whether a receive has a message that waits, and the standard has one too."""
        received = [re.fullmatch(r"NO_ERROR message (\S+)", it) for it in (standard, reply)]
        if call != "receive" or not all(received):
            return False
        return received[1][1] in self.waiting[self.port(partition, int(words[0]), "queuing")[3]]

    def believe(self, at, partition, call, words, reply):
        """What a reply shows that is believed, though it departs."""
        number, is_id = self.number_about(partition, call, words), reply.startswith("NO_ERROR id")
        self.follow(at, partition, call, words, f"NO_ERROR id {number or 0}" if is_id else reply)
        self.mode[partition] = self.mode_shown(self.mode[partition], call, words, reply)
        created = self.created_shown(call, words, reply)
        if number and created is not None:
            (self.created.add if created else self.created.discard)((partition, number))
        status = re.fullmatch(r"NO_ERROR refresh .* last (VALID|INVALID)", reply)
        if number and status:
            self.last[partition, number] = status[1]
        ports = self.module.partitions[partition]
        if call != "read" or not 1 <= int(words[0]) <= len(ports) or ports[int(words[0]) - 1][2] != "destination":
            return
        channel, read = ports[int(words[0]) - 1][3], re.fullmatch(r"NO_ERROR message (\S+) (VALID|INVALID)", reply)
        if read:
            self.sample[channel] = (read[1], at if read[2] == "VALID" else 0)
        elif reply == "NO_ACTION":
            self.sample.pop(channel, None)

    @staticmethod
    def mode_shown(present, call, words, reply):
        made = "NORMAL" if present == "IDLE" else present
        if reply == "not made":
            return "IDLE"
        if call == "mode":
            shown = {("3", "NO_ACTION"): "NORMAL", ("2", "INVALID_MODE"): "COLD_START"}
            return present if reply == "NO_ERROR" else shown.get((words[0], reply), made)
        if call.startswith("create") and reply == "INVALID_MODE":
            return "NORMAL"
        return "COLD_START" if call.startswith("create") and reply.startswith("NO_ERROR id") and made == "NORMAL" else made

    @staticmethod
    def created_shown(call, words, reply):
        """Whether a reply shows that the port is created; None where it says nothing of that."""
        is_code = " " not in reply
        if reply == "not made" or call == "mode":
            return None
        if call.startswith("create"):
            return {"NO_ACTION": True, "INVALID_CONFIG": False}.get(reply)
        if call.endswith("-id"):
            return True if reply.startswith("NO_ERROR id") else False if is_code else None
        if call in ("send", "write") and words[1] == "-":
            return None
        return reply != "INVALID_PARAM"

    def follow(self, at, partition, call, words, reply):
        """The effects of an entry, whatever the standard has for its call."""
        created = re.fullmatch(r"NO_ERROR id (\d+)", reply)
        if call.startswith("create") and created:
            self.created.add((partition, int(created[1])))
            self.last.pop((partition, int(created[1])), None)
        elif call == "mode" and reply == "NO_ERROR" and int(words[0]) <= 3:
            self.mode[partition] = MODES[int(words[0])]
            if words[0] in "12":
                self.created = {it for it in self.created if it[0] != partition}
        elif call in ("send", "write", "receive", "clear", "read"):
            self.pass_on(at, partition, call, words, reply)

    def pass_on(self, at, partition, call, words, reply):
        number, ports = int(words[0]), self.module.partitions[partition]
        shown = re.fullmatch(r"NO_ERROR message (\S+) (VALID|INVALID)", reply)
        if call == "read" and shown:
            self.last[partition, number] = shown[2]
        if not 1 <= number <= len(ports):
            return
        _, _, direction, channel, _ = ports[number - 1]
        waiting, message = self.waiting[channel], re.fullmatch(r"NO_ERROR message (\S+)", reply)
        if call == "send" and reply == "NO_ERROR" and direction == "source":
            waiting.append(words[1])
        elif call == "write" and reply == "NO_ERROR" and direction == "source":
            self.sample[channel] = (words[1], at)
        elif direction == "destination" and (call, reply) in [("receive", "NOT_AVAILABLE"), ("clear", "NO_ERROR")]:
            waiting.clear()
        elif call == "receive" and message and direction == "destination" and message[1] in waiting:
            del waiting[:waiting.index(message[1]) + 1]
