"""Another matcher, written from the venue's rules in a style of its own: a clock, parts in one flat list, wheels in a dictionary.

It shares no code and no data structure with the definitions in crates/rules/specs, and is compared with them by sessions.py.
"""

SIDES = {"B": "S", "S": "B"}


class Book:
    def __init__(self, lot, dealing="parity"):
        self.lot = lot
        self.dealing = dealing
        self.phase = "New"
        self.orders = {}
        self.parts = []
        self.wheels = {}
        self.clock = 0
        self.last = 0
        self.away = {"B": 0, "S": 0}

    # Prices

    def as_good(self, side, a, b):
        return a >= b if side == "B" else a <= b

    def better(self, side, a, b):
        return a > b if side == "B" else a < b

    def displayed(self, side, price):
        return sum(p["quantity"] for p in self.parts if (p["side"], p["price"], p["category"]) == (side, price, 2))

    def best(self, side):
        prices = {p["price"] for p in self.parts if p["side"] == side and p["category"] == 2}
        prices = [v for v in prices if self.displayed(side, v) >= self.lot]
        if not prices:
            return None
        return max(prices) if side == "B" else min(prices)

    # Parts and seats

    def resting(self, order):
        return sum(p["quantity"] for p in self.parts if p["order"] == order)

    def interest(self, wheel, participant):
        return sum(p["quantity"] for p in self.parts if (p["side"], p["price"], p["category"]) == wheel and p["participant"] == participant)

    def lower(self, part, amount):
        part["quantity"] -= amount
        assert part["quantity"] >= 0
        if part["quantity"] == 0:
            self.parts.remove(part)
        key = (part["side"], part["price"], part["category"])
        wheel = self.wheels[key]
        if part["participant"] in wheel["seats"] and self.interest(key, part["participant"]) == 0:
            if wheel["seats"][0] == part["participant"]:
                wheel["used"] = 0
            wheel["seats"].remove(part["participant"])
            if not wheel["seats"]:
                wheel["used"] = 0

    def add(self, order, category, quantity, marked):
        self.clock += 1
        key = (order["side"], order["price"], category)
        wheel = self.wheels.setdefault(key, {"seats": [], "used": 0})
        self.parts.append({
            "order": order["number"], "participant": order["participant"], "side": order["side"], "price": order["price"],
            "category": category, "quantity": quantity, "time": self.clock, "marked": marked,
        })
        if order["participant"] not in wheel["seats"]:
            wheel["seats"].append(order["participant"])

    def earns_mark(self, side, price, quantity):
        if quantity < self.lot:
            return False
        best = self.best(side)
        if best is not None and not self.better(side, price, best):
            return False
        if self.away[side] != 0 and not self.better(side, price, self.away[side]):
            return False
        return not any(p["marked"] for p in self.parts if p["side"] == side and p["price"] == price)

    def forget_gone(self):
        for number in list(self.orders):
            if self.resting(number) == 0:
                del self.orders[number]

    # Calls: each answers (number, traded, given back, rows)

    def call(self, call, room=400):
        name, *args = call
        return getattr(self, "call_" + name)(room, *args)

    def turn_phase(self, table):
        if self.phase not in table:
            return False
        self.phase = table[self.phase]
        return True

    def call_open(self, room):
        return (0, 0, 0, []) if self.turn_phase({"New": "Open"}) else (20, 0, 0, [])

    def call_halt(self, room):
        if not self.turn_phase({"Open": "Halted"}):
            return (20, 0, 0, [])
        for part in self.parts:
            part["marked"] = False
        return (0, 0, 0, [])

    def call_resume(self, room):
        return (0, 0, 0, []) if self.turn_phase({"Halted": "Open"}) else (20, 0, 0, [])

    def call_close(self, room):
        if room < 400:
            return (6, 0, 0, [])
        if not self.turn_phase({"Open": "Shut", "Halted": "Shut"}):
            return (20, 0, 0, [])
        rows = [("G", n, self.resting(n)) for n in sorted(self.orders)]
        self.parts, self.orders, self.wheels = [], {}, {}
        return (0, 0, sum(r[2] for r in rows), rows)

    def call_quote(self, room, bid, offer):
        if bid > 99_999_999 or offer > 99_999_999:
            return (7, 0, 0, [])
        if self.phase == "Shut":
            return (20, 0, 0, [])
        self.away = {"B": bid, "S": offer}
        return (0, 0, 0, [])

    def call_cancel(self, room, number):
        if not 1 <= number <= 999_999:
            return (1, 0, 0, [])
        if room < 400:
            return (6, 0, 0, [])
        if self.phase not in ("Open", "Halted"):
            return (20, 0, 0, [])
        left = self.resting(number)
        if left == 0:
            return (23, 0, 0, [])
        for part in [p for p in self.parts if p["order"] == number]:
            self.lower(part, part["quantity"])
        self.forget_gone()
        return (0, 0, left, [("G", number, left)])

    def call_reduce(self, room, number, quantity):
        if not 1 <= number <= 999_999:
            return (1, 0, 0, [])
        if not 1 <= quantity <= 500_000:
            return (3, 0, 0, [])
        if room < 400:
            return (6, 0, 0, [])
        if self.phase not in ("Open", "Halted"):
            return (20, 0, 0, [])
        rests = self.resting(number)
        if rests == 0:
            return (23, 0, 0, [])
        if quantity >= rests:
            return (24, 0, 0, [])
        left = quantity
        own = [p for p in self.parts if p["order"] == number]
        # hidden first, then the later shown part, then the earlier
        for part in sorted(own, key=lambda p: (p["category"] == 2, -p["time"])):
            taken = min(left, part["quantity"])
            if taken:
                self.lower(part, taken)
            left -= taken
        return (0, 0, quantity, [("G", number, quantity)])

    def refuses_entry(self, room, side, kind, number, participant, quantity, display, price):
        if not 1 <= number <= 999_999:
            return 1
        if not 1 <= participant <= 24:
            return 2
        if not 1 <= quantity <= 500_000:
            return 3
        if kind == "M":
            if price != 0:
                return 4
        elif not 1 <= price <= 99_999_999 or (price >= 10_000 and price % 100):
            return 4
        if kind == "R":
            if display < 1 or display % self.lot or display > quantity:
                return 5
        elif display != 0:
            return 5
        if room < 400:
            return 6
        if self.phase != "Open":
            return 20
        if number <= self.last:
            return 21
        if kind in "LNR" and len(self.orders) == 128:
            return 22
        other = SIDES[side]
        if kind == "M" and self.best(other) is None and self.away[other] == 0:
            return 25
        return 0

    def call_enter(self, room, side, kind, number, participant, quantity, display, price):
        refusal = self.refuses_entry(room, side, kind, number, participant, quantity, display, price)
        if refusal:
            return (refusal, 0, 0, [])
        self.last = number
        left, rows = self.trade(side, kind, number, quantity, price)
        self.replenish()
        self.forget_gone()
        traded = quantity - left
        if left == 0:
            return (0, traded, 0, rows)
        other = SIDES[side]
        if kind in "IM" or (self.away[other] != 0 and self.as_good(other, self.away[other], price)):
            return (0, traded, left, rows + [("G", number, left)])
        order = {"number": number, "participant": participant, "side": side, "kind": kind, "quantity": quantity, "price": price, "display": display}
        self.orders[number] = order
        shown = 0 if kind == "N" else left if kind == "L" else min(display, left)
        if shown:
            self.add(order, 2, shown, self.earns_mark(side, price, shown))
        if left - shown:
            self.add(order, 3, left - shown, False)
        return (0, traded, 0, rows)

    def trade(self, side, kind, number, left, limit):
        other, rows = SIDES[side], []
        for price in sorted({p["price"] for p in self.parts if p["side"] == other}, reverse=other == "B"):
            if kind != "M" and not self.as_good(other, price, limit):
                continue
            if self.away[other] != 0 and not self.as_good(other, price, self.away[other]):
                continue
            if left and self.displayed(other, price) >= self.lot:
                for part in [p for p in self.parts if p["side"] == other and p["price"] == price and p["marked"]]:
                    taken = min(left, part["quantity"])
                    rows.append(("S", part["order"], number, price, taken))
                    left -= taken
                    self.lower(part, taken)
            for category, step in ((2, "D"), (3, "N")):
                parts = sorted((p for p in self.parts if (p["side"], p["price"], p["category"]) == (other, price, category)), key=lambda p: p["time"])
                if left and parts:
                    got = self.deal(left, (other, price, category), parts)
                    for part, taken in zip(parts, got):
                        left -= taken
                        if taken:
                            rows.append((step, part["order"], number, price, taken))
                        if part["quantity"] == 0:
                            self.parts.remove(part)
        return left, rows

    def deal(self, left, key, parts):
        return (self.deal_by_parity if self.dealing == "parity" else self.deal_by_time)(left, key, parts)

    def deal_by_time(self, left, key, parts):
        got, wheel = [], self.wheels[key]
        for part in parts:
            taken = min(left, part["quantity"])
            part["quantity"] -= taken
            left -= taken
            got.append(taken)
        stays = [s for s in wheel["seats"] if any(p["participant"] == s and p["quantity"] for p in parts)]
        if not stays or stays[0] != wheel["seats"][0]:
            wheel["used"] = 0
        wheel["seats"] = stays
        return got

    def deal_by_parity(self, left, key, parts):
        got, wheel = [0] * len(parts), self.wheels[key]
        while left and wheel["seats"]:
            first = wheel["seats"][0]
            interest = sum(p["quantity"] for p in parts if p["participant"] == first)
            taken = min(self.lot - wheel["used"], interest, left)
            left -= taken
            wheel["used"] += taken
            share = taken
            for i, part in enumerate(parts):
                if part["participant"] == first and share:
                    piece = min(share, part["quantity"])
                    part["quantity"] -= piece
                    share -= piece
                    got[i] += piece
            if interest == taken:
                wheel["seats"].pop(0)
                wheel["used"] = 0
            elif wheel["used"] == self.lot:
                wheel["seats"].append(wheel["seats"].pop(0))
                wheel["used"] = 0
        return got

    def replenish(self):
        for number in sorted(self.orders):
            order = self.orders[number]
            if order["kind"] != "R":
                continue
            own = sorted((p for p in self.parts if p["order"] == number), key=lambda p: p["time"])
            shown = [p for p in own if p["category"] == 2]
            hidden = [p for p in own if p["category"] == 3]
            if sum(p["quantity"] for p in shown) >= self.lot or not hidden:
                continue
            if len(shown) == 2:
                amount = shown[1]["quantity"]
                self.lower(shown[1], amount)
                hidden[0]["quantity"] += amount
            fresh = min(order["display"], hidden[0]["quantity"])
            marked = self.earns_mark(order["side"], order["price"], fresh)
            self.lower(hidden[0], fresh)
            self.add(order, 2, fresh, marked)
