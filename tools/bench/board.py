"""A host as a board has it, of a given number of nodes, and requests for it: buses, controllers, clocks, power domains, pins,
regulators, gpios and interrupts, whose devices reference each other by phandle. The same for the same number, always."""
import random
from reader_cases import blob, begin, prop, w, END, END_NODE


class Ref:
    def __init__(self, node):
        self.node = node


class Node:
    def __init__(self, name, **props):
        self.name, self.props, self.children, self.phandle, self.path = name, [], [], 0, ""
        self.say(**props)

    def say(self, **props):
        """Properties by Python's names: `_` is `-`, and a leading `n_` is `#`."""
        for name, value in props.items():
            name = ("#" + name[2:] if name.startswith("n_") else name).replace("_", "-")
            self.props.append((name, value if isinstance(value, (list, bytes)) else [value]))
        return self

    def add(self, name, **props):
        child = Node(name, **props)
        self.children.append(child)
        return child

    def all(self):
        yield self
        for c in self.children:
            yield from c.all()


def text(*words):
    return b"".join(x.encode() + b"\0" for x in words)


def device(bus, kind, at, **props):
    return bus.add("%s@%x" % (kind, at), compatible=text("vendor,%s" % kind), reg=[0, at, 0, 0x1000], **props)


class Board:
    def __init__(self, nodes):
        self.rng, self.at = random.Random(nodes), 0xFD000000
        self.root = Node("", n_address_cells=2, n_size_cells=2, compatible=text("vendor,board", "vendor,soc"), model=text("A board"))
        self.root.add("chosen", bootargs=text("console=ttyS2,1500000"), stdout_path=text("serial2:1500000n8"))
        self.root.add("memory@200000", device_type=text("memory"), reg=[0, 0x200000, 0, 0x7FE00000])
        self.cpus()
        self.gic = self.root.add("interrupt-controller@fd400000", compatible=text("arm,gic-v3"), n_interrupt_cells=3,
                                 interrupt_controller=b"", reg=[0, 0xFD400000, 0, 0x10000])
        self.root.say(interrupt_parent=Ref(self.gic))
        self.soc = self.root.add("soc", n_address_cells=2, n_size_cells=2, compatible=text("simple-bus"), ranges=b"")
        self.controllers()
        self.regulators()
        self.pins()
        while self.count() < nodes - 60:
            self.group(self.rng.choice([self.i2c, self.serial, self.network, self.display, self.sound, self.heat, self.speeds]))
        while self.count() < nodes:
            self.soc.add("spare%d" % self.count(), status=text("disabled"))

    def count(self):
        return sum(1 for _ in self.root.all())

    def next(self):
        self.at += 0x10000
        return self.at

    def group(self, make):
        make()

    def cpus(self):
        cpus = self.root.add("cpus", n_address_cells=1, n_size_cells=0)
        made = [cpus.add("cpu@%x" % (i << 8), compatible=text("arm,cortex-a55"), device_type=text("cpu"), reg=i << 8) for i in range(8)]
        cluster = cpus.add("cpu-map").add("cluster0")
        for i, c in enumerate(made):
            cluster.add("core%d" % i, cpu=Ref(c))

    def controllers(self):
        fixed = [self.root.add("clock-%d" % i, compatible=text("fixed-clock"), n_clock_cells=0, clock_frequency=24000000 + i,
                               clock_output_names=text("xin%d" % i)) for i in range(6)]
        self.cru = device(self.soc, "clock-controller", self.next(), n_clock_cells=1, n_reset_cells=1, clocks=[Ref(fixed[0])],
                          assigned_clocks=[])
        pmu = device(self.soc, "power-management", self.next())
        self.power = pmu.add("power-controller", n_power_domain_cells=1, n_address_cells=1, n_size_cells=0)
        for i in range(12):
            self.power.add("power-domain@%d" % i, reg=i, n_power_domain_cells=0, clocks=[Ref(self.cru), 400 + i, Ref(self.cru), 300 + i])
        self.dma = [self.fed("dma-controller", n_dma_cells=1) for _ in range(2)]
        self.mmu = [self.fed("iommu", n_iommu_cells=0) for _ in range(6)]
        self.gpio = [self.fed("gpio", gpio_controller=b"", n_gpio_cells=2, interrupt_controller=b"", n_interrupt_cells=2) for _ in range(5)]
        self.sensor = self.fed("tsadc", n_thermal_sensor_cells=1)
        self.grf = device(self.soc, "syscon", self.next())
        self.phys = [self.fed("phy", n_phy_cells=1, syscon=Ref(self.grf)) for _ in range(4)]

    def fed(self, kind, domain=False, **props):
        """A device with its clocks, reset and interrupt."""
        c = self.rng.randrange(300)
        d = device(self.soc, kind, self.next(), interrupts=[0, c, 4], clocks=[Ref(self.cru), c, Ref(self.cru), c + 1],
                   clock_names=text("baudclk", "apb_pclk"), resets=[Ref(self.cru), c], **props)
        return d.say(power_domains=[Ref(self.power), self.rng.randrange(12)]) if domain else d

    def regulators(self):
        self.dc = self.root.add("regulator-dc", compatible=text("regulator-fixed"), regulator_name=text("dc_12v"), regulator_always_on=b"")
        self.supply = [self.root.add("regulator-%d" % i, compatible=text("regulator-fixed"), regulator_name=text("vcc%d" % i),
                                     vin_supply=Ref(self.dc), gpio=[Ref(self.gpio[i % 5]), i, 0]) for i in range(8)]

    def pins(self):
        self.pinctrl = device(self.soc, "pinctrl", self.next(), syscon=Ref(self.grf), n_address_cells=2, n_size_cells=2)
        self.pull = [self.pinctrl.add("pcfg-pull-%d" % i, bias_pull_up=b"", drive_strength=i) for i in range(8)]

    def pin(self, name):
        """A device's group of pins, with two settings."""
        g = self.pinctrl.add("%s%d" % (name, self.count()))
        return [g.add("%s-%s" % (name, s), vendor_pins=[self.rng.randrange(5), self.rng.randrange(32), 1, Ref(self.rng.choice(self.pull))])
                for s in ("xfer", "cts")]

    def i2c(self):
        pins = self.pin("i2c")
        bus = self.fed("i2c", pinctrl_names=text("default"), pinctrl_0=[Ref(pins[0])], n_address_cells=1, n_size_cells=0)
        chip = bus.add("pmic@20", compatible=text("vendor,pmic"), reg=0x20, interrupt_parent=Ref(self.gpio[0]), interrupts=[3, 8],
                       vcc1_supply=Ref(self.rng.choice(self.supply)))
        inside = chip.add("regulators")
        for i in range(self.rng.randrange(6, 12)):
            made = inside.add("LDO_REG%d" % i, regulator_name=text("ldo%d" % i), regulator_min_microvolt=900000,
                              regulator_max_microvolt=1800000, vin_supply=Ref(self.rng.choice(self.supply[:8])))
            self.supply.append(made)
        bus.add("eeprom@50", compatible=text("atmel,24c02"), reg=0x50, vcc_supply=Ref(self.rng.choice(self.supply)))

    def serial(self):
        for kind in ("serial", "spi"):
            pins = self.pin(kind)
            d = self.fed(kind, True, dmas=[Ref(self.dma[0]), self.rng.randrange(32), Ref(self.dma[0]), 5], dma_names=text("tx", "rx"),
                         pinctrl_names=text("default"), pinctrl_0=[Ref(pins[0]), Ref(pins[1])])
            if kind == "spi":
                d.add("flash@0", compatible=text("jedec,spi-nor"), reg=0, spi_max_frequency=50000000,
                      vcc_supply=Ref(self.rng.choice(self.supply)), reset_gpios=[Ref(self.rng.choice(self.gpio)), 4, 1])

    def network(self):
        pins = self.pin("gmac")
        d = self.fed("ethernet", True, pinctrl_0=[Ref(pins[0]), Ref(pins[1])], phy_mode=text("rgmii"), syscon=Ref(self.grf),
                     phy_supply=Ref(self.rng.choice(self.supply)))
        phy = d.add("mdio", n_address_cells=1, n_size_cells=0).add("ethernet-phy@1", reg=1, reset_gpios=[Ref(self.rng.choice(self.gpio)), 2, 1])
        d.say(phy_handle=Ref(phy))
        self.fed("usb", True, phys=[Ref(self.rng.choice(self.phys)), 0], phy_names=text("usb2-phy"), dr_mode=text("host"))

    def display(self):
        d = self.fed("vop", True, iommus=Ref(self.rng.choice(self.mmu)), memory_region=Ref(self.grf))
        ports = d.add("ports", n_address_cells=1, n_size_cells=0)
        ends = [ports.add("port@%d" % i, reg=i).add("endpoint") for i in range(2)]
        ends[0].say(remote_endpoint=Ref(ends[1]))

    def sound(self):
        pins = self.pin("i2s")
        dai = self.fed("i2s", True, n_sound_dai_cells=0, dmas=[Ref(self.dma[1]), 3], pinctrl_0=[Ref(p) for p in pins])
        card = self.root.add("sound-%d" % self.count(), compatible=text("simple-audio-card"), simple_audio_card_name=text("card"))
        card.add("simple-audio-card,cpu", sound_dai=Ref(dai))
        card.add("simple-audio-card,codec", sound_dai=Ref(dai))

    def heat(self):
        zone = self.root.add("thermal-zone-%d" % self.count(), polling_delay=1000, thermal_sensors=[Ref(self.sensor), self.rng.randrange(2)])
        trips = zone.add("trips")
        for i in range(3):
            trips.add("trip-point-%d" % i, temperature=70000 + i, hysteresis=2000, type=text("passive"))

    def speeds(self):
        table = self.root.add("opp-table-%d" % self.count(), compatible=text("operating-points-v2"), opp_shared=b"")
        for i in range(self.rng.randrange(5, 9)):
            table.add("opp-%d" % (408000000 + i * 100000000), opp_hz=[0, 408000000 + i * 100000000], opp_microvolt=[900000, 900000, 1150000])
        self.fed("gpu", True, operating_points_v2=Ref(table), mali_supply=Ref(self.rng.choice(self.supply)))


def numbered(root):
    """Gives each node its path, and each node that is referenced its phandle."""
    def climb(n, above):
        for c in n.children:
            c.path = above + "/" + c.name
            climb(c, c.path)
    root.path = "/"
    climb(root, "")
    made = 0
    for n in root.all():
        for _, value in n.props:
            for v in value if isinstance(value, list) else []:
                if isinstance(v, Ref) and not v.node.phandle:
                    made += 1
                    v.node.phandle = made


def packed(root):
    strings, at, out = b"", {}, []

    def offset(name):
        nonlocal strings
        if name not in at:
            at[name] = len(strings)
            strings += name.encode() + b"\0"
        return at[name]

    def lay(n):
        out.append(begin(n.name.encode()))
        for name, value in n.props:
            if isinstance(value, list):
                value = w(*[v.node.phandle if isinstance(v, Ref) else v for v in value])
            out.append(prop(offset(name), value))
        if n.phandle:
            out.append(prop(offset("phandle"), w(n.phandle)))
        for c in n.children:
            lay(c)
        out.append(END_NODE)
    lay(root)
    return blob(b"".join(out) + END, strings)


def board(nodes):
    root = Board(nodes).root
    numbered(root)
    assert sum(1 for _ in root.all()) == nodes, nodes
    return root


def request(root, each):
    """`each` configured devices of different kinds, and as many excluded ones outside them: first four that they reference; four CPUs."""
    soc = next(c for c in root.children if c.name == "soc")
    kinds = {}
    for d in soc.children:
        kinds.setdefault(d.name.split("@")[0], []).append(d)
    asked, wanted = [], ["i2c", "ethernet", "vop", "spi", "serial", "i2s", "usb", "gpu"]
    while len(asked) < each:
        for kind in wanted:
            if kinds[kind] and len(asked) < each:
                asked.append(kinds[kind].pop(0))
    values = [v for a in asked for n in a.all() for _, value in n.props if isinstance(value, list) for v in value]
    met = {v.node.name.split("@")[0]: v.node for v in values if isinstance(v, Ref)}
    left = [met[k] for k in ("iommu", "dma-controller", "gpio", "clock-controller")]
    left += [d for kind in wanted for d in kinds[kind]]
    left += [c for c in root.children if c.name.startswith(("opp-table", "thermal-zone"))]
    return ["c " + d.path for d in asked] + ["x " + d.path for d in left[:each]] + ["i %d" % (i << 8) for i in range(4)]
