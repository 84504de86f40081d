#!/usr/bin/env python3
"""trees.py: writes trees/*.dts and has dtc build each into trees/*.dtb. Twelve boards in small, and two dozen drawn by a fixed seed.
Run from the root of the repository; needs dtc (Debian: device-tree-compiler). The results are kept, so that a test needs no dtc."""
import os, random, subprocess

BOARDS = {
    "empty": "/dts-v1/;\n/ { };\n",
    "bench": """/dts-v1/;
/ {
	clk { phandle = <1>; #clock-cells = <1>; };
	pd { phandle = <2>; };
	soc {
		uart@100 { clocks = <1 5>; power-domains = <2>; };
		dma@200 { phandle = <3>; };
	};
};
""",
    "reserved": """/dts-v1/;
/memreserve/ 0x40000000 0x10000;
/memreserve/ 0x0 0x1000;
/ { #address-cells = <2>; #size-cells = <2>; memory@40000000 { device_type = "memory"; reg = <0 0x40000000 0 0x40000000>; }; };
""",
    "cpus": """/dts-v1/;
/ {
	#address-cells = <1>; #size-cells = <1>;
	cpus {
		#address-cells = <2>; #size-cells = <0>;
		cpu-map { cluster0 { core0 { cpu = <&cpu0>; }; core1 { cpu = <&cpu1>; }; }; };
		cpu0: cpu@0 { device_type = "cpu"; compatible = "arm,cortex-a53"; reg = <0 0>; enable-method = "psci"; };
		cpu1: cpu@100 { device_type = "cpu"; compatible = "arm,cortex-a72"; reg = <0 0x100>; next-level-cache = <&l2>;
			l2: l2-cache { compatible = "cache"; cache-level = <2>; }; };
	};
	psci { compatible = "arm,psci-1.0"; method = "smc"; };
};
""",
    "interrupts": """/dts-v1/;
/ {
	interrupt-parent = <&gic>;
	#address-cells = <2>; #size-cells = <1>;
	gic: interrupt-controller@8000000 { compatible = "arm,gic-v3"; interrupt-controller; #interrupt-cells = <3>; reg = <0 0x8000000 0x10000>; };
	timer { compatible = "arm,armv8-timer"; interrupts = <1 13 8>, <1 14 8>, <1 11 8>, <1 10 8>; };
	pcie@10000000 { device_type = "pci"; #interrupt-cells = <1>; interrupt-map = <0 0 0 1 &gic 0 3 4>; bus-range = <0 255>; };
	keys { interrupts-extended = <&gic 0 5 4>, <&gic 0 6 4>; };
};
""",
    "clocks": """/dts-v1/;
/ {
	osc: oscillator { compatible = "fixed-clock"; #clock-cells = <0>; clock-frequency = <24000000>; clock-output-names = "osc", "ref"; };
	cru: clock-controller@ff760000 { #clock-cells = <1>; #reset-cells = <1>; clocks = <&osc>; assigned-clocks = <&cru 1>, <&cru 2>; };
	i2c@ff650000 { clocks = <&cru 5>, <&cru 6>, <&osc>; clock-names = "bus", "pclk", "ref"; resets = <&cru 7>;
		codec@1a { vcc-supply = <&vdd>; sound-name-prefix = "Main"; }; };
	vdd: regulator { compatible = "regulator-fixed"; regulator-name = "vdd"; };
};
""",
    "gpios": """/dts-v1/;
/ {
	gpio0: gpio@0 { gpio-controller; #gpio-cells = <2>; gpio-line-names = "a", "", "c"; };
	gpio1: gpio@1 { gpio-controller; #gpio-cells = <3>; };
	leds { led-0 { gpios = <&gpio0 3 1>; }; led-1 { enable-gpios = <&gpio1 0 4 1>; reset-gpio = <&gpio0 9 0>; }; };
};
""",
    "values": """/dts-v1/;
/ {
	bytes = [01 02 03];
	one = [ff];
	strings = "first", "", "third";
	halves = /bits/ 16 <1 2 3>;
	longs = /bits/ 64 <0x1122334455667788>;
	mixed = "text", <1 2>, [aa bb cc];
	flag;
	path = &target;
	target: node@1f { };
};
""",
    "names": """/dts-v1/;
/ {
	a-name-of-thirty-one-characters = <1>;
	a-node-of-thirty-one-characters { };
	a-node-of-31-characters-at-unit@0123456789abcdef0123456789abcdef { };
	"#cells" { };
	x,y.z_w+v-u { p,q.r_s+t?u-v = <1>; };
	9digits-first { };
};
""".replace('\t"#cells" { };\n', ""),
    "deep": "/dts-v1/;\n/ " + "{ n " * 63 + "{ end = <1>; }" + "; }" * 63 + ";\n",
    "wide": "/dts-v1/;\n/ {\n" + "".join(f"\tdev@{i:x} {{ reg = <{i}>; }};\n" for i in range(300)) + "};\n",
    "properties": "/dts-v1/;\n/ {\n" + "".join(f"\tprop-{i} = <{i}>;\n" for i in range(400)) + "};\n",
}
KINDS = ["uart", "spi", "i2c", "dma", "mmc", "ethernet", "timer", "phy", "iommu", "mailbox", "pwm", "codec", "display", "camera"]
NAMES = ["status", "compatible", "reg", "label", "clock-names", "interrupts", "vdd-supply", "clocks", "resets", "dmas", "phys", "mboxes",
         "reset-gpios", "power-domains", "pinctrl-0", "nvmem-cells", "iommus", "memory-region", "max-frequency", "bus-width"]


def drawn(seed):
    rng = random.Random(seed)
    labels, lines = [], ["/dts-v1/;", "/ {", "\tmodel = \"drawn %d\";" % seed]
    count = rng.randint(4, 60)

    def value(name):
        kind = rng.randrange(5)
        if kind == 0 or (name in ("clocks", "dmas", "phys", "resets") and labels):
            return "<" + " ".join(rng.choice(["&" + rng.choice(labels), str(rng.randrange(9))]) if labels else str(rng.randrange(9)) for _ in range(rng.randint(1, 4))) + ">"
        if kind == 1:
            return '"' + rng.choice(["okay", "disabled", "acme,part-%d" % rng.randrange(99)]) + '"'
        if kind == 2:
            return "[" + " ".join("%02x" % rng.randrange(256) for _ in range(rng.randint(1, 7))) + "]"
        if kind == 3:
            return "<" + " ".join(hex(rng.randrange(1 << 32)) for _ in range(rng.randint(1, 6))) + ">"
        return '"a", "%s"' % ("b" * rng.randint(0, 9))

    def node(depth, left):
        used = set()
        while left > 0:
            name = "%s@%x" % (rng.choice(KINDS), rng.randrange(1 << rng.choice([4, 12, 32])))
            if name in used:
                continue
            used.add(name)
            left -= 1
            tab = "\t" * depth
            label = ""
            if rng.random() < 0.5:
                label = "l%d: " % len(labels)
            lines.append("%s%s%s {" % (tab, label, name))
            if label:
                labels.append(label[:-2])
                cells = rng.choice(["clock", "reset", "gpio", "dma", "phy", "iommu", "power-domain", "mbox"])
                lines.append("%s\t#%s-cells = <%d>;" % (tab, cells, rng.randrange(4)))
            for prop in rng.sample(NAMES, rng.randint(0, 6)):
                lines.append("%s\t%s = %s;" % (tab, prop, value(prop)) if rng.random() < 0.9 else "%s\t%s;" % (tab, prop))
            inner = rng.randint(0, min(left, 6)) if depth < 8 and rng.random() < 0.4 else 0
            node(depth + 1, inner)
            left -= inner
            lines.append(tab + "};")
    node(1, count)
    return "\n".join(lines + ["};", ""])


def main():
    os.makedirs("trees", exist_ok=True)
    sources = dict(BOARDS)
    for seed in range(1, 25):
        sources["drawn-%02d" % seed] = drawn(seed)
    for name, text in sources.items():
        path = os.path.join("trees", name)
        with open(path + ".dts", "w") as f:
            f.write(text)
        subprocess.run(["dtc", "-q", "-I", "dts", "-O", "dtb", "-o", path + ".dtb", path + ".dts"], check=True)


if __name__ == "__main__":
    main()
