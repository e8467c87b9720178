"""A run: the schedule is played on the stage while the load goes on, and the judge looks."""
import random
import subprocess
import threading
import time

import books
import plan
import wire
from judge import Judge
from load import History, Load, Talker, octets_of

# After this many seconds a group that was healed and doesn't know all commands is a fault.
LATEST, PROMPT = 60, 10
# How many seconds a machine that has much else to do is given at the end.
PATIENT = 600


class Run:
    def __init__(self, stage, material, options, logs):
        self.stage, self.options = stage, options
        self.file = open(logs + "/schedule", "w", encoding="utf-8")
        self.chance = random.Random(f"run {stage.seed}")
        self.history = History(logs + "/history", stage.clock)
        self.load = Load(stage, material, stage.seed, self.history)
        self.judge = Judge(self.load, self.history, self.say)
        self.active, self.events, self.shift = [], 0, 0.0
        self.healing, self.healed, self.samples, self.seconds = None, [], {}, []
        self.restarts, self.compacting = {}, {}
        # When nothing was troubled.
        self.calm, self.calm_since = [], None

    # ---- what is said

    def say(self, text):
        line = f"{self.stage.clock():8.2f}  {text}"
        self.file.write(line + "\n")
        self.file.flush()
        if self.options.verbose or text.startswith("WRONG"):
            print(line, flush=True)

    # ---- the troubles

    def begin(self, it):
        self.events += 1
        if self.calm_since is not None:
            self.calm.append((self.calm_since, self.stage.clock()))
            self.calm_since = None
        self.say(f"begins: {plan.words(it)}")
        if it["until"] > it["at"]:
            self.active.append(it)
        getattr(self, "begin_" + it["kind"], self.set_ways)(it)

    def end(self, it):
        if it not in self.active:
            return
        self.active.remove(it)
        self.events += 1
        self.say(f"ends: {it['kind']} {it.get('node', '')}")
        getattr(self, "end_" + it["kind"], self.set_ways)(it)

    def set_ways(self, _it=None):
        states = {}
        for it in self.active:
            for way in it.get("ways", ()) if "state" in it else ():
                states[way] = it["state"]
        for a in self.stage.nodes:
            for b in self.stage.nodes:
                if a is not b:
                    way = a.number, b.number
                    self.stage.set_way(*way, states.get(way, {}))

    def begin_replay(self, it):
        for way in it["ways"]:
            self.stage.tell_way(*way, {"replay": it["count"]})

    def stop_node(self, node, power):
        if not node.is_up():
            return
        node.kill()
        self.restarts.pop(node.number, None)
        lost = node.lose_power(self.chance) if power else 0
        self.say(f"  node {node.number} is killed" + (
            f", {lost} writes that weren't synced are lost or torn" if power else ""))

    def start_node(self, node):
        self.restarts.pop(node.number, None)
        if not node.is_up():
            node.start()

    def begin_kill(self, it):
        self.stop_node(self.stage.node(it["node"]), False)

    def end_kill(self, it):
        if not self.keeps_down(it["node"]):
            self.start_node(self.stage.node(it["node"]))

    def keeps_down(self, number):
        return any(old.get("node") == number and old["kind"] in ("kill", "power") or
                   old["kind"] == "blackout" for old in self.active)

    def begin_power(self, it):
        self.stop_node(self.stage.node(it["node"]), True)

    end_power = end_kill

    def begin_blackout(self, _it):
        for node in self.stage.nodes:
            self.stop_node(node, True)

    def end_blackout(self, _it):
        for node in self.stage.nodes:
            if not self.keeps_down(node.number):
                self.start_node(node)

    def begin_flap(self, it):
        node = self.stage.node(it["node"])
        for pause in it["pauses"]:
            self.stop_node(node, it["power"])
            node.start()
            time.sleep(pause)
            self.events += 1

    def end_flap(self, _it):
        pass

    def begin_pause(self, it):
        self.stage.node(it["node"]).pause(True)

    def end_pause(self, it):
        self.stage.node(it["node"]).pause(False)

    def begin_full(self, it):
        node = self.stage.node(it["node"])
        node.sick = float("inf")
        if self.stage.disks == "plain":
            node.device({0: 1, 2: 1, 3: plan.ENOSPC, 5: 1})
        else:
            node.fill()

    def begin_write(self, it):
        node = self.stage.node(it["node"])
        node.sick = float("inf")
        node.device({0: it["passing"] + 1, 2: it["part"], 3: it["error"], 5: it["stays"]})

    def begin_sync(self, it):
        node = self.stage.node(it["node"])
        node.sick = float("inf")
        node.device({1: it["passing"] + 1, 3: it["error"], 5: it["stays"]})

    def end_full(self, it):
        node = self.stage.node(it["node"])
        node.free()
        node.device({0: 0, 1: 0, 5: 0})
        node.sick = self.stage.clock() + 10

    end_write = end_sync = end_full

    def begin_drag(self, it):
        self.stage.node(it["node"]).device({4: it["micros"]})

    def end_drag(self, it):
        self.stage.node(it["node"]).device({4: 0})

    def begin_compact(self, it):
        self.compacting[it["node"]] = self.stage.node(it["node"]).client("admin")

    def end_compact(self, it):
        self.compacting.pop(it["node"], None)

    def begin_keys(self, it):
        keys, node = self.stage.keys, it["node"]
        if it["what"] == "change":
            keys.announce()
        elif it["what"] == "spoil":
            # A node that is started with such a file ends.
            self.stage.node(node).sick = float("inf")
            keys.spoil(node)
        else:
            keys.leave_out(node, it["peer"])

    def end_keys(self, it):
        keys, node = self.stage.keys, it["node"]
        if it["what"] == "change":
            keys.exchange()
        else:
            keys.leave_out(node, None)
            self.stage.node(node).sick = self.stage.clock() + 10

    def begin_second(self, it):
        """A second server of a record is refused, as long as the first one lives."""
        node = self.stage.node(it["node"])
        if not node.is_up() or node.paused:
            return
        time.sleep(0.3)
        life = node.life
        with open(node.errors + ".second", "w+b") as said:
            second = subprocess.Popen(node.words(("127.0.0.1", 1)), stdin=subprocess.DEVNULL,
                                      stdout=said, stderr=said)
            try:
                status = second.wait(10)
            except subprocess.TimeoutExpired:
                second.kill()
                status = second.wait()
            said.seek(0)
            text = said.read().decode(errors="replace")
        if node.is_up() and node.life == life and (status != 1 or "fault: Busy" not in text):
            self.judge.find(f"a second server ended with {status}: {text[-200:]}",
                            node=node.number)

    # ---- healing

    def heal(self, _it=None):
        for it in list(self.active):
            self.end(it)
        for node in self.stage.nodes:
            node.pause(False)
            node.device({0: 0, 1: 0, 4: 0, 5: 0})
            node.free()
            self.start_node(node)
        self.set_ways()
        target = self.load.highest
        waited = {node.number: node.waited() for node in self.stage.nodes}
        self.healing = self.stage.clock(), target, waited
        self.say(f"all is healed; {target} commands are known to be settled")

    def look_at_healing(self):
        """Which nodes know all by now. What a node waits for a processor isn't counted."""
        begun, target, behind = self.healing
        took = self.stage.clock() - begun
        for number, waited in sorted(behind.items()):
            node = self.stage.node(number)
            known = node.answers(0.3 if took < LATEST else 3)
            if known is not None and known >= target:
                del behind[number]
            elif took - (node.waited() - waited) > LATEST or took > 10 * LATEST:
                self.judge.find(f"{took:.0f} s after healing it knows {known} of {target}; for "
                                f"{node.waited() - waited:.0f} s it had no processor", node=number)
                del behind[number]
        if not behind:
            self.healed.append(took)
            self.say(f"all nodes know them {took:.2f} s after healing")
            self.healing, self.calm_since = None, self.stage.clock()

    # ---- looking after the nodes

    def supervise(self):
        now = self.stage.clock()
        for node in self.stage.nodes:
            status = node.ended()
            if status is not None:
                self.node_ended(node, status, now)
            elif not node.is_up() and self.restarts.get(node.number, now + 1) <= now:
                if not self.keeps_down(node.number):
                    self.start_node(node)

    def node_ended(self, node, status, now):
        """A node ended by itself: after its device failed it may, with 1, and is started again."""
        node.wanted = False
        words = node.last_words()
        self.say(f"  node {node.number} ended with {status}: {' '.join(words)}")
        if status != 1 or now > node.sick and node.failures() == node.failed_before:
            self.judge.find(f"it ended with {status}: {' '.join(words)}", node=node.number)
        if any(word in " ".join(words) for word in ("Damaged", "NotFormatted", "OldVersion")):
            self.judge.find(f"its record isn't opened: {' '.join(words)}", node=node.number)
        node.process = None
        lost = node.lose_power(self.chance)
        if lost:
            self.say(f"  its machine is started again: {lost} writes are lost or torn")
        self.restarts[node.number] = now + 0.5

    def sample(self):
        """Which nodes could reach a majority, at each quarter of a second."""
        stage, up = self.stage, []
        for node in stage.nodes:
            if node.is_up() and not node.paused and stage.clock() > node.sick:
                up.append(node.number)
        good = {a for a in up if 2 * (1 + sum(
            stage.reaches(a, b) for b in up if b != a)) > len(stage.nodes)}
        self.samples.setdefault(int(stage.clock()), []).append(good)

    def keep_compacting(self):
        for number, client in self.compacting.items():
            begun = self.stage.clock()
            answer = client.call(wire.frame(wire.COMPACT), 0.2)
            self.history.add(begun, "c", number, "compact", None, answer)

    def tick(self):
        self.supervise()
        self.sample()
        self.keep_compacting()
        self.judge.catch_up()
        while self.stage.heard:
            node, what = self.stage.heard.pop(0)
            self.judge.find(f"on the way between nodes: {what}", node=node)
        if self.healing:
            self.look_at_healing()
        time.sleep(0.02 if self.compacting else 0.1)

    # ---- the whole

    def play(self, troubles, heals):
        actions = [(it["at"], 1, self.begin, it) for it in troubles]
        actions += [(it["until"], 0, self.end, it) for it in troubles]
        actions += [(at, 2, self.heal, None) for at in heals]
        actions.sort(key=lambda action: action[:2])
        for at, _, do, it in actions:
            while self.stage.clock() < at + self.shift or self.healing:
                if self.healing and self.stage.clock() > at + self.shift:
                    self.shift = self.stage.clock() - at
                self.tick()
                if self.judge.wrong and not self.options.go_on:
                    return
            do(it)
        while self.healing:
            self.tick()

    def submit_at_each(self):
        """Once all is healed, each node has a command settled that is submitted there."""
        for node in self.stage.nodes:
            talker, command = Talker(self.load, "last", node.number), self.load.command("noop")
            begun, tried, is_done = self.stage.clock(), -10, False
            while not is_done and self.stage.clock() < begun + PATIENT:
                if self.stage.clock() > tried + 10:
                    tried = self.stage.clock()
                    is_done = talker.submit(node.number, command, 10)
                else:
                    time.sleep(0.05)
                    is_done = talker.outcome(node.number, command)
            if not is_done:
                self.judge.find(f"a command isn't settled {PATIENT} s after it was submitted, when "
                                "all is healed", node=node.number)

    def level(self, still):
        """Waits until all nodes know the same number of commands, with no load, and no more for so
        many seconds: a command that a client gave up may still wait at a node."""
        begun = since = self.stage.clock()
        before = None
        while self.stage.clock() < begun + PATIENT:
            known = [node.answers(2) for node in self.stage.nodes]
            if known != before or None in known:
                before, since = known, self.stage.clock()
            if len(set(known)) == 1 and self.stage.clock() > since + still:
                return known[0]
            self.supervise()
            time.sleep(0.1)
        self.judge.find(f"{PATIENT} s after the load ended the nodes know {known}, and "
                        f"{self.load.highest} are settled", node=0)
        return min(k or 0 for k in known)

    def ask_again(self):
        """Each node is asked for each id and each question that was answered."""
        asked = [("outcome", name, wire.frame(wire.OUTCOME, name))
                 for name, command in self.load.commands.items() if command.first is not None]
        asked += [("question", (what, k), octets_of(what, k)) for what, k in self.judge.replies]
        threads = [threading.Thread(target=self.ask_node, args=(node, asked))
                   for node in self.stage.nodes]
        for thread in threads:
            thread.start()
        for thread in threads:
            thread.join()
        self.judge.catch_up()
        self.judge.unknown_after()

    def ask_node(self, node, asked):
        client, place, tries = node.client(), 0, 0
        while place < len(asked) and tries < 5:
            some = asked[place:place + 50]
            begun = self.stage.clock()
            answers = client.calls([octets for _, _, octets in some], 20)
            for (what, key, _), answer in zip(some, answers):
                entry = self.history.add(begun, "end", node.number, what, key, answer)
                if what == "outcome" and answer.kind != wire.SETTLED and key in self.judge.ids:
                    self.judge.find(f"id {key.hex()} was settled, and is not known", entry)
            place, tries = place + len(answers), 0 if answers else tries + 1
        client.close()
        if place < len(asked):
            self.judge.find(f"{asked[place][0]} isn't answered at the end", node=node.number)

    def unanswered(self):
        """How many requests had no answer, and how many of them while nothing was troubled."""
        none = [entry for entry in self.history.entries if entry.answer is None]
        calm = sum(any(begin <= entry.begun and entry.ended <= end for begin, end in self.calm)
                   for entry in none)
        return len(none), calm

    def availability(self):
        """Of the seconds in which a node reached a majority all the time, in how many a command
        that was submitted there was settled within one."""
        counted = good = 0
        for second, samples in self.samples.items():
            samples = samples + self.samples.get(second + 1, [set()])
            able = set.intersection(*samples)
            probes = [self.load.probes[number, second] for number in able
                      if (number, second) in self.load.probes]
            if probes:
                counted, good = counted + 1, good + any(probes)
        return good, counted
