"""Packets of many stations as gateways and clients send them: positions of each form, weather, objects, items, messages, telemetry."""

import random

PREFIXES = "DL DO DB DK OE HB9 F4 F1 G4 M0 PA PD ON SP OK IK IW EA LA SM OH K1 K4 N2 W6 KD AB VE VK JA BG".split()
SSIDS = ["", "-1", "-2", "-5", "-7", "-9", "-9", "-10", "-11", "-13"]
PROGRAMS = "APRS APDR16 APLRG1 APAT51 APWW10 APFII0 APMI06".split()
SERVERS = "T2POLAND T2GERMANY T2FINLAND T2ONTARIO".split()
STATIONS, GATES = 3000, 200


class Air:
    """What is heard of some stations. The same seed gives the same packets."""

    def __init__(self, seed):
        self.chance = random.Random(seed)
        self.stations = [(self.call() + self.chance.choice(SSIDS), *self.place()) for _ in range(STATIONS)]
        self.gates = [self.call() + "-10" for _ in range(GATES)]
        self.number = 0

    def call(self):
        prefix = self.chance.choice(PREFIXES)
        digit = "" if prefix[-1].isdigit() else str(self.below(10))
        letters = "".join(self.chance.choice("ABCDEFGHIJKLMNOPQRSTUVWXYZ") for _ in range(self.chance.randint(2, 3)))
        return (prefix + digit + letters)[:6]

    def place(self):
        """Three of five are in the middle of Europe, the others anywhere."""
        if self.chance.random() < 0.6:
            return self.chance.gauss(49, 4), self.chance.gauss(10, 6)
        return self.chance.uniform(-50, 60), self.chance.uniform(-170, 170)

    def below(self, bound):
        return self.chance.randrange(bound)

    def time(self):
        return f"{1 + self.below(28):02}{self.below(24):02}{self.below(60):02}z"

    def path(self):
        gate = self.chance.choice(self.gates)
        way = self.chance.random()
        if way < 0.45:
            return f"{self.chance.choice(['WIDE1-1,WIDE2-1', 'WIDE1-1', 'WIDE2-2'])},qAR,{gate}"
        if way < 0.75:
            return f"{self.chance.choice(self.gates)}*,WIDE1*,WIDE2-1,qAR,{gate}"
        return f"TCPIP*,qAC,{self.chance.choice(SERVERS)}"

    def packet(self):
        """The next packet. No two of 99,991 have the same body."""
        station, lat, lon = self.chance.choice(self.stations)
        lat, lon = lat + self.chance.gauss(0, 0.05), lon + self.chance.gauss(0, 0.05)
        self.number = (self.number + 1) % 99_991
        dest, body = self.body(lat, lon, f"{self.number:05}")
        return f"{station}>{dest},{self.path()}:{body}"

    def body(self, lat, lon, mark):
        """A destination and a body with a mark in it."""
        kind, plain = self.chance.random(), self.chance.choice(PROGRAMS)
        if kind < 0.25:
            return plain, f"!{degrees(lat, lon, '/')}>{self.below(360):03}/{self.below(100):03} {mark}"
        if kind < 0.35:
            wind = f"{self.below(360):03}/{self.below(30):03}g010t{20 + self.below(70):03}r000p000P000h60b10132"
            return plain, f"@{self.time()}{degrees(lat, lon, '/')}_{wind} {mark}"
        if kind < 0.48:
            return plain, f"!/{compressed(lat, lon)}#  sT{mark} Digi"
        if kind < 0.68:
            return mic_e(lat, lon, mark)
        if kind < 0.76:
            return plain, f";{f'OBJ{self.below(400)}':9}*{self.time()}{degrees(lat, lon, '/')}r439.{mark} MHz"
        if kind < 0.84:
            return plain, f">{mark} Net Control Center, powered by solar"
        if kind < 0.91:
            return plain, f":{self.chance.choice(self.stations)[0]:9}:Hello there no {mark}{{{self.below(999)}"
        if kind < 0.97:
            return plain, f"T#{self.below(1000):03},{self.below(256):03},{self.below(256):03},100,120,199,00000000 {mark}"
        return plain, f")ITM{self.below(90)}!{degrees(lat, lon, '/')}A {mark}"


def parts_of(angle):
    """Whole degrees, whole minutes and hundredths of an angle without its sign."""
    hundredths = int(abs(angle) * 6000)
    return hundredths // 6000, hundredths // 100 % 60, hundredths % 100


def degrees(lat, lon, table):
    north, east = "%02d%02d.%02d" % parts_of(lat), "%03d%02d.%02d" % parts_of(lon)
    return f"{north}{'N' if lat >= 0 else 'S'}{table}{east}{'E' if lon >= 0 else 'W'}"


def base_91(value):
    return "".join(chr(33 + value // 91**place % 91) for place in (3, 2, 1, 0))


def compressed(lat, lon):
    return base_91(int(380_926 * (90 - lat))) + base_91(int(190_463 * (180 + lon)))


def mic_e(lat, lon, mark):
    """The destination has the latitude, and the body the longitude and no speed."""
    whole, minutes, hundredths = parts_of(lon)
    is_far = whole < 10 or whole >= 100
    digits = "%02d%02d%02d" % parts_of(lat)
    raised = [True, True, True, lat >= 0, is_far, lon < 0]
    dest = "".join(chr(ord(digit) + (32 if up else 0)) for digit, up in zip(digits, raised))
    first = whole + 118 if whole < 10 else whole + 28 if whole < 100 else whole + 8 if whole < 110 else whole - 72
    second = minutes + (88 if minutes < 10 else 28)
    return dest, f"`{chr(first)}{chr(second)}{chr(min(hundredths + 28, 126))}l#l>/`\"4V}}_%{mark}"


def packets(count, seed=5):
    air = Air(seed)
    return [air.packet() for _ in range(count)]
