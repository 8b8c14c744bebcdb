"""Callers that share a process over a log, and make changes and ask, until it is killed."""
import json
import signal
import threading
import time

from logged import Server


class Caller:
    """One of those that share a process: the snapshots that it has made, and its next line."""

    def __init__(self, number, chance):
        self.number, self.chance = number, chance
        self.begun, self.kinds = 0, {}

    def next_line(self):
        """A line, and what it leaves of its snapshots, of which None is that it changes nothing."""
        self.begun += 1
        made, chance = dict(self.kinds), self.chance
        key = chance.choice(sorted(made)) if made else None
        if key is None or len(made) < 4 and chance.random() < 0.3:
            key = f"{self.number}-{self.begun}"
            made[key] = "Active"
            return self.line("prepare", key, parent=""), made
        if chance.random() < 0.4:
            return self.line("report", key) if chance.random() < 0.5 else self.line("stat", key, quiet=True), None
        if made[key] == "Committed":
            del made[key]
            return self.line("remove", key), made
        if chance.random() < 0.4:
            return self.line("create", key, path=f"/{self.begun}"), made
        del made[key]
        if chance.random() < 0.5:
            return self.line("discard", key), made
        made[f"c{key}"] = "Committed"
        return self.line("commit", key, name=f"c{key}"), made

    def line(self, word, key, **more):
        number = f"{self.number}.{self.begun}"
        command = {"do": word, **({} if word == "report" else {"ns": "a", "key": key}), **more, "id": number}
        return json.dumps(command, separators=(",", ":")).encode()


class Round:
    """A process over a log up to a kill, with callers that each wait for their answers."""

    def __init__(self, path, callers):
        self.server, self.callers = Server(path), callers
        self.lock, self.sent, self.answers, self.waiting = threading.Lock(), [], {}, {}
        self.is_over = False

    def ask(self, caller):
        """A caller's next line, and its answer; None where the process has ended."""
        with self.lock:
            if self.is_over:
                return None
            line, made = caller.next_line()
            number = json.loads(line)["id"]
            self.waiting[number] = answered = threading.Event()
            try:
                self.server.process.stdin.write(line + b"\n")
            except BrokenPipeError:
                return None
            self.sent.append((line, caller, made))
        answered.wait()
        answer = self.answers.get(number)
        if answer is not None and made is not None:
            caller.kinds = made
        return answer

    def call(self, caller):
        while self.ask(caller) is not None:
            pass

    def read(self):
        """Hands answers on, until the process has ended; then nobody has to wait."""
        while told := self.server.answers(1):
            number = json.loads(told[0])["id"]
            self.answers[number] = told[0]
            self.waiting[number].set()
        with self.lock:
            self.is_over = True
            for answered in self.waiting.values():
                answered.set()

    def run(self, seconds):
        """Lets the callers call for this long, and kills the process."""
        threads = [threading.Thread(target=self.call, args=(caller,)) for caller in self.callers]
        threads.append(threading.Thread(target=self.read))
        for thread in threads:
            thread.start()
        time.sleep(seconds)
        self.server.process.send_signal(signal.SIGKILL)
        for thread in threads:
            thread.join()
        return self.server.end()
