"""Entrants who hand in all the time, each answer until it is taken, and write down what they are told.

    crowd.py SECONDS FROM FIRST JOURNAL ADDRESS ..

Ten of filled.py, from the FROMth on, hand in to the round `now`, with tokens from the number FIRST on. Where an address
doesn't answer, the next one is asked. JOURNAL gets a line for each answer that was taken: whose, place, token, the
moment, and its `n`.
"""
import http.client
import json
import sys
import threading
import time

ENTRANTS, PLACES, PATIENCE = 10, 25, 2
# It breaks rules, so that one may go on.
BODY = json.dumps({"answer": "1234341221434312"})


class Entrant(threading.Thread):
    def __init__(self, name, until, first, journal, addresses):
        super().__init__(daemon=True)
        self.name_of, self.until, self.next, self.journal = name, until, first, journal
        self.addresses, self.line = addresses, None
        self.start()

    def run(self):
        while time.time() < self.until:
            place, token = self.next % PLACES + 1, f"m{self.next}"
            taken = self.taken(f"/rounds/now/answers/{place}/{token}")
            if taken is not None:
                self.journal.write(json.dumps([self.name_of, place, token, time.time(), taken]) + "\n")
                self.next += 1

    def taken(self, path):
        """Its `n`; none where it wasn't answered, and then another address is asked next time."""
        headers = {"Hall-Key": f"{self.name_of}-key-{self.name_of}", "Connection": "close"}
        line = http.client.HTTPConnection(self.addresses[0], timeout=PATIENCE)
        try:
            line.request("PUT", path, BODY, headers)
            reply = line.getresponse()
            body = reply.read()
            if reply.status == 200:
                return json.loads(body)["received"]
        except (OSError, http.client.HTTPException):
            pass
        finally:
            line.close()
        self.addresses = [*self.addresses[1:], self.addresses[0]]
        time.sleep(0.2)
        return None


def main():
    seconds, whom, first, path, *addresses = sys.argv[1:]
    with open(path, "a", encoding="ascii", buffering=1) as journal:
        until = time.time() + float(seconds)
        names = [f"s{int(whom) + k}" for k in range(ENTRANTS)]
        for it in [Entrant(name, until, int(first), journal, addresses) for name in names]:
            it.join()


if __name__ == "__main__":
    main()
