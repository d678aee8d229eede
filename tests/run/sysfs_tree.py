#!/usr/bin/env python3
"""Lays out sysfs as the kernel does, for four machines: two laptops, a desk and a tablet.
usage: tests/run/sysfs_tree.py FOLDER
Then FOLDER/thinkpad, FOLDER/convertible, FOLDER/desk and FOLDER/tablet are roots, each with a `sys`. `devices(FOLDER)` names what can be asked."""
import os
import sys

from events import CAPS, KEY_CAPSLOCK, pressed

# The classes of input events that a modalias lists, in its order, and the file of each in `capabilities` (Documentation/input of Linux).
EVENTS = (("k", "key"), ("r", "rel"), ("a", "abs"), ("m", "msc"), ("l", "led"), ("s", "snd"), ("f", "ff"), ("w", "sw"))
# The number of each type of events; `repeat` is a keyboard that repeats its keys.
TYPES = {"k": 1, "r": 2, "a": 3, "m": 4, "w": 5, "l": 17, "s": 18, "repeat": 20, "f": 21}
# The numbers of the buses that input devices are at.
USB, BLUETOOTH, I8042, HOST, I2C = "0003", "0005", "0011", "0019", "0018"


def bitmap(numbers):
    """Bits as the kernel prints them: words of 64 bits in hexadecimal, the highest first."""
    value = sum(1 << number for number in numbers)
    words = []
    while value or not words:
        words.insert(0, "%x" % (value & (2**64 - 1)))
        value >>= 64
    return " ".join(words)


class Machine:
    """A root with a `sys`. Paths are below it and begin with `/sys`."""

    def __init__(self, root):
        self.root = root
        for folder in ("/sys/class", "/sys/bus", "/sys/dev/char", "/sys/dev/block", "/sys/devices"):
            os.makedirs(root + folder, exist_ok=True)
        self.asked = []

    def write(self, path, text):
        os.makedirs(os.path.dirname(self.root + path), exist_ok=True)
        with open(self.root + path, "w", encoding="utf-8") as file:
            file.write(text + "\n" if text else "")

    def link(self, path, target):
        folder = os.path.dirname(self.root + path)
        os.makedirs(folder, exist_ok=True)
        if not os.path.lexists(self.root + path):
            os.symlink(os.path.relpath(self.root + target, folder), self.root + path)

    def device(self, path, subsystem=None, driver=None, uevent=(), attributes=(), on_class=False, node=None, ask=True):
        """A device's folder. `node` is its number, for a device with a node; a block device is no part of these machines."""
        lines = list(uevent)
        if node:
            lines = ["MAJOR=%d" % node[0], "MINOR=%d" % node[1], "DEVNAME=" + node[2]] + lines
            self.write(path + "/dev", "%d:%d" % node[:2])
            self.link("/sys/dev/char/%d:%d" % node[:2], path)
        if driver:
            lines.append("DRIVER=" + driver)
        self.write(path + "/uevent", "\n".join(lines))
        name = os.path.basename(path)
        if subsystem and on_class:
            self.link(path + "/subsystem", "/sys/class/" + subsystem)
            self.link("/sys/class/%s/%s" % (subsystem, name), path)
        elif subsystem:
            self.link(path + "/subsystem", "/sys/bus/" + subsystem)
            self.link("/sys/bus/%s/devices/%s" % (subsystem, name), path)
        if driver:
            folder = "/sys/bus/%s/drivers/%s" % (subsystem, driver)
            os.makedirs(self.root + folder, exist_ok=True)
            self.link(path + "/driver", folder)
        for attribute, value in dict(attributes).items():
            self.write(path + "/" + attribute, value)
        if subsystem and ask:
            self.asked.append(path)
        return path

    def dmi(self, modalias, **attributes):
        attributes["modalias"] = modalias
        self.device("/sys/devices/virtual/dmi/id", "dmi", uevent=["MODALIAS=" + modalias], attributes=attributes, on_class=True)

    def pci(self, address, driver, vendor, product, subsystem, kind, parent="/sys/devices/pci0000:00"):
        """A PCI function. `kind` is its class: base, sub, interface."""
        modalias = "pci:v0000%sd0000%ssv0000%ssd0000%sbc%ssc%si%s" % (vendor, product, *subsystem, *kind)
        if not os.path.exists(self.root + parent):
            self.device(parent)
        return self.device(
            "%s/%s" % (parent, address), "pci", driver,
            ["PCI_CLASS=" + "".join(kind).lstrip("0"), "PCI_ID=%s:%s" % (vendor, product), "PCI_SUBSYS_ID=%s:%s" % subsystem,
             "PCI_SLOT_NAME=" + address, "MODALIAS=" + modalias],
            {"modalias": modalias, "vendor": "0x" + vendor.lower(), "device": "0x" + product.lower(), "class": "0x" + "".join(kind).lower()})

    def input(self, parent, number, event, name, phys, bus, ids, kinds, properties=(), uniq="", mouse=None):
        """An input device and its event node. `kinds` are the numbers of each class of events, as in EVENTS."""
        path = "%s/input/input%d" % (parent, number)
        types = sorted({0} | {TYPES[k] for k in kinds})
        numbers = {k: sorted(v) for k, v in kinds.items() if k != "repeat"}
        # The modalias leaves out keys below KEY_MIN_INTERESTING (0x71).
        told = "e" + "".join("%X," % t for t in types)
        for letter, _ in EVENTS:
            told += letter + "".join("%X," % n for n in numbers.get(letter, ()) if letter != "k" or n >= 0x71)
        modalias = "input:b%sv%sp%se%s-%s" % (bus, *(i.upper() for i in ids), told)
        attributes = {"name": name, "phys": phys, "uniq": uniq, "modalias": modalias, "id/bustype": bus, "id/vendor": ids[0],
                      "id/product": ids[1], "id/version": ids[2], "capabilities/ev": bitmap(types), "properties": bitmap(properties)}
        for letter, file in EVENTS:
            attributes["capabilities/" + file] = bitmap(numbers.get(letter, ()))
        uevent = ["PRODUCT=%x/%x/%x/%x" % tuple(int(i, 16) for i in (bus, *ids)), 'NAME="%s"' % name, 'PHYS="%s"' % phys,
                  'UNIQ="%s"' % uniq, "PROP=" + bitmap(properties), "EV=" + bitmap(types)]
        uevent += ["%s=%s" % (file.upper(), bitmap(numbers[letter])) for letter, file in EVENTS if letter in numbers]
        self.device(path, "input", uevent=uevent + ["MODALIAS=" + modalias], attributes=attributes, on_class=True)
        self.link(path + "/device", parent)
        nodes = [("event%d" % event, 64 + event)] + ([(mouse, {"m": 32, "j": 0}[mouse[0]] + int(mouse.lstrip("mousej")))] if mouse else [])
        for node, minor in nodes:
            self.device(path + "/" + node, "input", node=(13, minor, "input/" + node), on_class=True)
            self.link("%s/%s/device" % (path, node), path)
        return path

    def usb_device(self, path, number, ids, release, kind, product, maker, hub=False):
        """A USB device, as it is plugged in. `kind` is its class: class, subclass, protocol."""
        bus = int(path.split("/usb")[1].split("/")[0])
        attributes = {"idVendor": ids[0], "idProduct": ids[1], "bcdDevice": release, "bDeviceClass": kind[0], "bDeviceSubClass": kind[1],
                      "bDeviceProtocol": kind[2], "busnum": str(bus), "devnum": str(number), "maxchild": "4" if hub else "0",
                      "removable": "removable", "devpath": os.path.basename(path).split("-")[-1]}
        if product:
            attributes["product"] = product
        if maker:
            attributes["manufacturer"] = maker
        return self.device(
            path, "usb", "usb",
            ["DEVTYPE=usb_device", "PRODUCT=%x/%x/%x" % tuple(int(i, 16) for i in (*ids, release)), "TYPE=%d/%d/%d" % tuple(int(k, 16) for k in kind),
             "BUSNUM=%03d" % bus, "DEVNUM=%03d" % number],
            attributes, node=(189, 128 * (bus - 1) + number - 1, "bus/usb/%03d/%03d" % (bus, number)))

    def usb_interface(self, device, number, driver, ids, release, kind, of):
        """An interface of a USB device: its class, and that of the device."""
        modalias = "usb:v%sp%sd%sdc%sdsc%sdp%sic%sisc%sip%sin%02X" % (
            *(i.upper() for i in (*ids, release, *kind, *of)), number)
        return self.device(
            "%s/%s:1.%d" % (device, os.path.basename(device), number), "usb", driver,
            ["DEVTYPE=usb_interface", "PRODUCT=%x/%x/%x" % tuple(int(i, 16) for i in (*ids, release)),
             "TYPE=%d/%d/%d" % tuple(int(k, 16) for k in kind), "INTERFACE=%d/%d/%d" % tuple(int(k, 16) for k in of), "MODALIAS=" + modalias],
            {"modalias": modalias, "bInterfaceClass": of[0], "bInterfaceSubClass": of[1], "bInterfaceProtocol": of[2], "bInterfaceNumber": "%02x" % number})

    def hid(self, parent, bus, ids, instance, name, phys, driver="hid-generic", group="0001"):
        """A HID device, with its raw node."""
        ids = tuple(i.upper() for i in ids)
        modalias = "hid:b%sg%sv0000%sp0000%s" % (bus, group, *ids)
        path = self.device(
            "%s/%s:%s:%s.%04X" % (parent, bus, *ids, instance), "hid", driver,
            ["HID_ID=%s:0000%s:0000%s" % (bus, *ids), "HID_NAME=" + name, "HID_PHYS=" + phys, "HID_UNIQ=", "MODALIAS=" + modalias],
            {"modalias": modalias, "country": "00"})
        raw = self.device("%s/hidraw/hidraw%d" % (path, instance), "hidraw", node=(242, instance, "hidraw%d" % instance), on_class=True)
        self.link(raw + "/device", path)
        return path

    def net(self, parent, name, index, address, type="1", assigned="0", devtype=None):
        path = self.device(
            "%s/net/%s" % (parent, name), "net", uevent=(["DEVTYPE=" + devtype] if devtype else []) + ["INTERFACE=" + name, "IFINDEX=%d" % index],
            attributes={"address": address, "type": type, "addr_assign_type": assigned, "addr_len": "6", "ifindex": str(index), "iflink": str(index),
                        "dev_id": "0x0", "dev_port": "0", "flags": "0x1003", "name_assign_type": "4"}, on_class=True)
        self.link(path + "/device", parent)
        return path

    def sound(self, parent, number, name):
        path = self.device("%s/sound/card%d" % (parent, number), "sound", attributes={"id": name, "number": str(number)}, on_class=True)
        self.link(path + "/device", parent)
        control = "controlC%d" % number
        self.device(path + "/" + control, "sound", node=(116, 32 * number, "snd/" + control), on_class=True)
        self.link("%s/%s/device" % (path, control), path)

    def battery(self, hid, name, model, limits):
        parent = self.device("/sys/devices/LNXSYSTM:00/LNXSYBUS:00/%s" % hid, "acpi", "battery", ["MODALIAS=acpi:%s:" % hid[:7]],
                             {"modalias": "acpi:%s:" % hid[:7], "hid": hid[:7]})
        attributes = {"type": "Battery", "model_name": model, "manufacturer": "SANYO"}
        if limits:
            attributes.update(charge_control_start_threshold="0", charge_control_end_threshold="100")
        if limits == "end":
            del attributes["charge_control_start_threshold"]
        path = self.device("%s/power_supply/%s" % (parent, name), "power_supply", uevent=["POWER_SUPPLY_NAME=" + name, "POWER_SUPPLY_TYPE=Battery"],
                           attributes=attributes, on_class=True)
        self.link(path + "/device", parent)

    def at_keyboard(self, number):
        """The keyboard's controller with the keyboard at its first port."""
        port = self.device("/sys/devices/platform/i8042", "platform", "i8042", ["MODALIAS=platform:i8042"], {"modalias": "platform:i8042"})
        keyboard = self.serio(port, 0, "atkbd", "06", "i8042 KBD port")
        self.input(keyboard, number, number, "AT Translated Set 2 keyboard", "isa0060/serio0/input0", I8042, ("0001", "0001", "ab41"),
                   {"k": range(1, 0xF0), "m": [4], "l": [0, 1, 2], "repeat": True})
        return port

    def serio(self, port, number, driver, kind, description):
        modalias = "serio:ty%spr00id00ex00" % kind
        return self.device(
            "%s/serio%d" % (port, number), "serio", driver,
            ["SERIO_TYPE=" + kind, "SERIO_PROTO=00", "SERIO_ID=00", "SERIO_EXTRA=00", "MODALIAS=" + modalias],
            {"modalias": modalias, "description": description, "id/type": kind, "id/proto": "00", "id/id": "00", "id/extra": "00"})

    def webcam(self, device, number, ids, release, name, maker, video):
        usb = self.usb_device(device, number, ids, release, ("ef", "02", "01"), name, maker)
        interface = self.usb_interface(usb, 0, "uvcvideo", ids, release, ("ef", "02", "01"), ("0e", "01", "00"))
        path = self.device("%s/video4linux/video%d" % (interface, video), "video4linux", node=(81, video, "video%d" % video),
                           attributes={"name": name + ": " + name[:16], "index": "0"}, on_class=True)
        self.link(path + "/device", interface)

    def usb_bus(self, controller, number, hub="0002"):
        return self.usb_device("%s/usb%d" % (controller, number), 1, ("1d6b", hub), "0601", ("09", "00", "01"),
                               "xHCI Host Controller", "Linux 6.1.0-18-amd64 xhci-hcd", hub=True)

    def usb_hid(self, device, number, ids, release, product, maker, interfaces):
        """A USB device with HID interfaces: for each its protocol, HID instance, driver, suffix of its name, and input's number and kinds."""
        self.usb_device(device, number, ids, release, ("00", "00", "00"), product, maker)
        for at, (protocol, instance, driver, suffix, event, kinds, mouse) in enumerate(interfaces):
            interface = self.usb_interface(device, at, "usbhid", ids, release, ("00", "00", "00"), ("03", "01" if protocol != "00" else "00", protocol))
            name = "%s%s" % (" ".join(filter(None, (maker, product))), suffix)
            phys = "usb-0000:00:14.0-%s/input%d" % (os.path.basename(device).split("-")[1], at)
            parent = self.hid(interface, USB, ids, instance, name, phys, driver)
            self.input(parent, event, event, name, phys, USB, (*ids, release), kinds, mouse=mouse)


# What kinds of input devices tell: numbers of linux/input-event-codes.h.
KEYBOARD = {"k": list(range(1, 0x54)) + [0x71, 0x72, 0x73, 0x74], "m": [4], "l": [0, 1, 2, 3, 4], "repeat": True}
CONSUMER = {"k": [0x71, 0x72, 0x73, 0xA3, 0xA4, 0xA5, 0xA6, 0xE0, 0xE1], "r": [6, 12], "a": [0x20], "m": [4]}
MOUSE = {"k": [0x110, 0x111, 0x112, 0x113, 0x114], "r": [0, 1, 8, 11], "m": [4]}
STICK = {"k": [0x110, 0x111, 0x112], "r": [0, 1]}
TOUCHPAD = {"k": [0x110, 0x145, 0x148, 0x14A, 0x14D, 0x14E, 0x14F], "a": [0, 1, 0x18, 0x1C, 0x2F, 0x35, 0x36, 0x39]}
I2C_TOUCHPAD = {"k": [0x110, 0x145, 0x148, 0x14A, 0x14D, 0x14E, 0x14F], "a": [0, 1, 0x2F, 0x35, 0x36, 0x37, 0x39], "m": [5]}
GAMEPAD = {"k": [0x130, 0x131, 0x133, 0x134, 0x136, 0x137, 0x13A, 0x13B, 0x13C, 0x13D, 0x13E], "a": [0, 1, 2, 3, 4, 5, 0x10, 0x11], "f": [0x50, 0x51, 0x58, 0x59, 0x5A, 0x60]}
POWER = {"k": [0x74]}
LID = {"w": [0]}


def thinkpad(root):
    """A laptop with the older devices. Its DMI has parentheses, as BIOS versions of this maker do."""
    m = Machine(root)
    m.dmi("dmi:bvnLENOVO:bvrR07ET63W(2.03):bd03/15/2016:br2.3:efr1.14:svnLENOVO:pn20FW0005GE:pvrThinkPadT460p:rvnLENOVO:rn20FW0005GE:"
          "rvrSDK0J40705WIN:cvnLENOVO:ct10:cvrNone:skuLENOVO_MT_20FW_BU_Think_FM_ThinkPadT460p:",
          sys_vendor="LENOVO", product_name="20FW0005GE", bios_version="R07ET63W (2.03 )", chassis_asset_tag="No Asset Information", chassis_type="10")
    port = m.at_keyboard(3)
    m.input(m.serio(port, 1, "psmouse", "01", "i8042 AUX port"), 5, 5, "SynPS/2 Synaptics TouchPad", "isa0060/serio1/input0", I8042,
            ("0002", "0007", "01b1"), TOUCHPAD, [0, 2], mouse="mouse0")
    m.input(m.serio(port, 2, "psmouse", "01", "synaptics-pt/serio0 serio"), 6, 6, "TPPS/2 IBM TrackPoint", "synaptics-pt/serio0/input0", I8042,
            ("0002", "000a", "0000"), STICK, [0, 5], mouse="mouse1")
    lid = m.device("/sys/devices/LNXSYSTM:00/LNXSYBUS:00/PNP0C0D:00", "acpi", "button", ["MODALIAS=acpi:PNP0C0D:"], {"modalias": "acpi:PNP0C0D:"})
    m.input(lid, 0, 0, "Lid Switch", "PNP0C0D/button/input0", HOST, ("0000", "0005", "0000"), LID)
    m.battery("PNP0C0A:00", "BAT0", "45N1767", True)
    card = m.pci("0000:00:1f.6", "e1000e", "8086", "156F", ("17AA", "5050"), ("02", "00", "00"))
    m.net(card, "enp0s31f6", 2, "54:ee:75:a0:0b:c1")
    bridge = m.pci("0000:00:1c.0", "pcieport", "8086", "A110", ("17AA", "5050"), ("06", "04", "00"))
    m.net(m.pci("0000:03:00.0", "iwlwifi", "8086", "24F3", ("8086", "0130"), ("02", "80", "00"), bridge), "wlp3s0", 3, "e4:a7:a0:12:34:56", devtype="wlan")
    m.sound(m.pci("0000:00:1f.3", "snd_hda_intel", "8086", "A170", ("17AA", "5050"), ("04", "03", "00")), 0, "PCH")
    bus = m.usb_bus(m.pci("0000:00:14.0", "xhci_hcd", "8086", "A12F", ("17AA", "5050"), ("0C", "03", "30")), 1)
    m.webcam(bus + "/1-8", 4, ("04f2", "b541"), "0012", "Integrated Camera", "Chicony Electronics Co.,Ltd.", 0)
    m.net("/sys/devices/virtual", "lo", 1, "00:00:00:00:00:00", type="772")
    return m


def convertible(root):
    """A laptop with the newer devices: over i2c, with a sensor that tells how it is held, and mice over Bluetooth."""
    m = Machine(root)
    m.dmi("dmi:bvnInsyde:bvrF.41:bd11/29/2019:br15.41:efr94.49:svnHP:pnHPSpectrex360Convertible13-ae0xx:pvrType1ProductConfigId:"
          "rvnHP:rn83B9:rvr56.43:cvnHP:ct31:cvrChassisVersion:sku2PG63EA#ABD:",
          sys_vendor="HP", product_name="HP Spectre x360 Convertible 13-ae0xx", chassis_asset_tag="Chassis Asset Tag", chassis_type="31")
    m.at_keyboard(4)
    host = m.pci("0000:00:15.1", "intel-lpss", "8086", "9D61", ("103C", "83B9"), ("11", "80", "00"))
    adapter = m.device(host + "/i2c_designware.1", "platform", "i2c_designware", ["MODALIAS=platform:i2c_designware"], {"modalias": "platform:i2c_designware"})
    i2c = m.device(adapter + "/i2c-1", "i2c", attributes={"name": "Synopsys DesignWare I2C adapter"})
    pad = m.device(i2c + "/i2c-ELAN0732:00", "i2c", "i2c_hid_acpi", ["MODALIAS=acpi:ELAN0732:PNP0C50:"],
                   {"modalias": "acpi:ELAN0732:PNP0C50:", "name": "ELAN0732:00"})
    hid = m.hid(pad, I2C, ("04f3", "2a1e"), 1, "ELAN0732:00 04F3:2A1E", "i2c-ELAN0732:00", "hid-multitouch", "0004")
    m.input(hid, 8, 8, "ELAN0732:00 04F3:2A1E Touchpad", "i2c-ELAN0732:00", I2C, ("04f3", "2a1e", "0100"), I2C_TOUCHPAD, [0, 2], mouse="mouse0")
    sensor = m.device(i2c + "/i2c-KIOX000A:00", "i2c", "kxcjk1013", ["MODALIAS=acpi:KIOX000A:"], {"modalias": "acpi:KIOX000A:", "name": "KIOX000A:00"})
    m.device(sensor + "/iio:device0", "iio", node=(251, 0, "iio:device0"), uevent=["DEVTYPE=iio_device"], attributes={"name": "kxcj91008", "in_accel_scale": "0.009582"})
    lid = m.device(i2c + "/i2c-KIOX010A:00", "i2c", "kxcjk1013", ["MODALIAS=acpi:KIOX010A:"], {"modalias": "acpi:KIOX010A:", "name": "KIOX010A:00"})
    m.device(lid + "/iio:device1", "iio", node=(251, 1, "iio:device1"), uevent=["DEVTYPE=iio_device"],
             attributes={"name": "kxcj91008", "label": "accel-base", "in_accel_scale": "0.009582"})
    bus = m.usb_bus(m.pci("0000:00:14.0", "xhci_hcd", "8086", "9D2F", ("103C", "83B9"), ("0C", "03", "30")), 1)
    m.webcam(bus + "/1-5", 2, ("04f2", "b634"), "0001", "HP Wide Vision FHD Camera", "SunplusIT Inc", 0)
    radio = m.usb_device(bus + "/1-7", 3, ("8087", "0a2b"), "0010", ("e0", "01", "01"), None, None)
    hci = m.device(m.usb_interface(radio, 0, "btusb", ("8087", "0a2b"), "0010", ("e0", "01", "01"), ("e0", "01", "01")) + "/bluetooth/hci0",
                   "bluetooth", uevent=["DEVTYPE=host"], on_class=True)
    link = m.device(hci + "/hci0:256", "bluetooth", uevent=["DEVTYPE=link"], on_class=True)
    hid = m.hid(link, BLUETOOTH, ("046d", "b016"), 2, "Bluetooth Mouse M336/M337/M535", "00:1b:dc:0f:aa:01")
    m.input(hid, 21, 21, "Bluetooth Mouse M336/M337/M535", "00:1b:dc:0f:aa:01", BLUETOOTH, ("046d", "b016", "1200"), MOUSE, uniq="34:88:5d:11:22:33", mouse="mouse1")
    uhid = m.device("/sys/devices/virtual/misc/uhid", "misc", node=(10, 239, "uhid"), on_class=True)
    hid = m.hid(uhid, BLUETOOTH, ("046d", "b023"), 3, "MX Master 3", "00:1b:dc:0f:aa:01", "logitech-hidpp-device")
    m.input(hid, 22, 22, "MX Master 3", "00:1b:dc:0f:aa:01", BLUETOOTH, ("046d", "b023", "0015"), MOUSE, uniq="d1:0c:aa:11:22:33", mouse="mouse2")
    m.battery("PNP0C0A:00", "BAT1", "PK03XL  / HP (01)", False)
    m.net(m.pci("0000:01:00.0", "iwlwifi", "8086", "24FD", ("8086", "0010"), ("02", "80", "00")), "wlp1s0", 2, "f8:63:3f:aa:bb:cc", devtype="wlan")
    return m


def desk(root):
    """A desk's machine: devices at a hub, and cards that are plugged in."""
    m = Machine(root)
    m.dmi("dmi:bvnAmericanMegatrendsInc.:bvrF5:bd01/17/2014:br4.6:svnGigabyteTechnologyCo.,Ltd.:pnTobefilledbyO.E.M.:pvrTobefilledbyO.E.M.:"
          "rvnGigabyteTechnologyCo.,Ltd.:rnZ87X-UD3H-CF:rvrx.x:cvnGigabyteTechnologyCo.,Ltd.:ct3:cvrTobefilledbyO.E.M.:skuTobefilledbyO.E.M.:",
          sys_vendor="Gigabyte Technology Co., Ltd.", product_name="To be filled by O.E.M.", chassis_asset_tag="Asset: 1234", chassis_type="3")
    button = m.device("/sys/devices/LNXSYSTM:00/LNXPWRBN:00", "acpi", "button", ["MODALIAS=acpi:LNXPWRBN:"], {"modalias": "acpi:LNXPWRBN:"})
    m.input(button, 1, 1, "Power Button", "LNXPWRBN/button/input0", HOST, ("0000", "0001", "0000"), POWER)
    bus = m.usb_bus(m.pci("0000:00:14.0", "xhci_hcd", "8086", "8C31", ("1458", "5007"), ("0C", "03", "30")), 3)
    hub = m.usb_device(bus + "/3-1", 2, ("05e3", "0610"), "9304", ("09", "00", "02"), "USB2.1 Hub", "GenesysLogic", hub=True)
    m.usb_interface(hub, 0, "hub", ("05e3", "0610"), "9304", ("09", "00", "02"), ("09", "00", "00"))
    m.usb_hid(hub + "/3-1.1", 3, ("046d", "c31c"), "6402", "USB Keyboard", "Logitech", [
        ("01", 1, "hid-generic", "", 20, KEYBOARD, None), ("00", 2, "hid-generic", " Consumer Control", 21, CONSUMER, None)])
    m.usb_hid(hub + "/3-1.2", 4, ("045e", "0040"), "0300", "Microsoft 3-Button Mouse with IntelliEye(TM)", "Microsoft", [
        ("02", 3, "hid-generic", "", 22, MOUSE, "mouse0")])
    m.usb_hid(hub + "/3-1.3", 5, ("046d", "c52b"), "1211", "USB Receiver", "Logitech", [
        ("02", 4, "logitech-djreceiver", " Mouse", 23, MOUSE, "mouse1")])
    m.usb_hid(bus + "/3-2", 6, ("04d9", "a0cd"), "0110", "USB Keyboard (ISO/Größe)  ", None, [
        ("01", 5, "hid-generic", "", 24, KEYBOARD, None)])
    pad = m.usb_device(bus + "/3-3", 7, ("045e", "028e"), "0114", ("ff", "ff", "ff"), "Controller", "©Microsoft Corporation")
    interface = m.usb_interface(pad, 0, "xpad", ("045e", "028e"), "0114", ("ff", "ff", "ff"), ("ff", "5d", "01"))
    m.input(interface, 25, 25, "Microsoft X-Box 360 pad", "usb-0000:00:14.0-3/input0", USB, ("045e", "028e", "0114"), GAMEPAD, mouse="js0")
    serial = m.usb_device(bus + "/3-4", 8, ("0403", "6001"), "0600", ("00", "00", "00"), "FT232R USB UART", "FTDI")
    interface = m.usb_interface(serial, 0, "ftdi_sio", ("0403", "6001"), "0600", ("00", "00", "00"), ("ff", "ff", "ff"))
    port = m.device(interface + "/ttyUSB0", "usb-serial", "ftdi_sio", attributes={"port_number": "0"})
    m.device(port + "/tty/ttyUSB0", "tty", node=(188, 0, "ttyUSB0"), on_class=True)
    m.link(port + "/tty/ttyUSB0/device", port)
    speaker = m.usb_device(bus + "/3-5", 9, ("0d8c", "000c"), "0100", ("00", "00", "00"), "C-Media USB Headphone Set", None)
    m.sound(m.usb_interface(speaker, 0, "snd-usb-audio", ("0d8c", "000c"), "0100", ("00", "00", "00"), ("01", "01", "00")), 1, "Set")
    lan = m.usb_device(bus + "/3-6", 10, ("0b95", "1790"), "0100", ("ff", "ff", "00"), "AX88179", "ASIX Elec. Corp.")
    m.net(m.usb_interface(lan, 0, "ax88179_178a", ("0b95", "1790"), "0100", ("ff", "ff", "00"), ("ff", "ff", "00")), "enx000ec6a1b2c3", 3, "00:0e:c6:a1:b2:c3")
    bridge = m.pci("0000:00:1c.2", "pcieport", "8086", "8C14", ("1458", "5001"), ("06", "04", "00"))
    m.net(m.pci("0000:03:00.0", "r8169", "10EC", "8168", ("1458", "E000"), ("02", "00", "00"), bridge), "enp3s0", 2, "94:de:80:6a:01:f2")
    m.sound(m.pci("0000:00:1b.0", "snd_hda_intel", "8086", "8C20", ("1458", "A002"), ("04", "03", "00")), 0, "PCH")
    screen = m.pci("0000:00:02.0", "i915", "8086", "0412", ("1458", "D000"), ("03", "00", "00"))
    m.device(screen + "/graphics/fb0", "graphics", node=(29, 0, "fb0"), on_class=True, attributes={"name": "i915drmfb"})
    m.link(screen + "/graphics/fb0/device", screen)
    wire = m.pci("0000:04:00.0", "firewire_ohci", "104C", "8023", ("1458", "1000"), ("0C", "00", "10"), bridge)
    m.device(wire + "/fw0", "firewire", node=(246, 0, "fw0"), attributes={"vendor": "0x001018", "guid": "0x0010180000000001", "units": "", "is_local": "1"})
    camera = m.device(wire + "/fw1", "firewire", node=(246, 1, "fw1"), attributes={
        "vendor": "0x000085", "model": "0x00000b", "vendor_name": "Canon", "model_name": "Canon MV5i", "guid": "0x0000850000a1b2c3",
        "units": "0x00a02d:0x010001", "is_local": "0"})
    m.device(camera + "/fw1.0", "firewire", uevent=["MODALIAS=ieee1394:ven00000085mo0000000Bsp0000A02Dver00010001"],
             attributes={"modalias": "ieee1394:ven00000085mo0000000Bsp0000A02Dver00010001", "specifier_id": "0x00a02d", "version": "0x010001"})
    return m


def tablet(root):
    """A tablet. Its DMI is longer than what udev takes of an attribute, and so is the name of one touchpad; others are at several buses."""
    m = Machine(root)
    m.dmi("dmi:bvnAmericanMegatrendsInternational,LLC.:bvr%s:bd04/01/2024:br5.27:efr1.2:svn%s:pn%s:pvr%s:rvn%s:rnTablet:rvr1.0:cvn%s:ct32:cvr1.0:skuTablet:"
          % ("5.27(" + 55 * "v" + ")", 64 * "M", 120 * "p", 90 * "r", 64 * "M", 64 * "c"), sys_vendor="Maker", product_name="Tablet", chassis_asset_tag="Tag", chassis_type="32")
    m.at_keyboard(4)
    m.battery("PNP0C0A:00", "BAT0", "Cell", "end")
    host = m.pci("0000:00:1e.2", "intel-lpss", "8086", "9D29", ("103C", "83B9"), ("11", "80", "00"))
    chip = m.device(host + "/spi_master/spi0/spi0.0", "spi", "rmi4_spi", ["MODALIAS=spi:rmi4_spi"], {"modalias": "spi:rmi4_spi"})
    pad = m.device(chip + "/rmi4-00", "rmi4", "rmi4_physical", ["RMI_PHYS=1"])
    m.input(pad, 5, 5, "Synaptics TM3276-031", "rmi4-00/input0", "001d", ("06cb", "0000", "0000"), TOUCHPAD, [0, 2])
    adapter = m.device(m.pci("0000:00:15.1", "intel-lpss", "8086", "9D61", ("103C", "83B9"), ("11", "80", "00")) + "/i2c-1", "i2c", attributes={"name": "adapter"})
    m.input(m.device(adapter + "/i2c-LONG0001:00", "i2c", "i2c_hid_acpi", ["MODALIAS=acpi:LONG0001:"], {"modalias": "acpi:LONG0001:"}),
            6, 6, "Pad " + 508 * "n", "i2c-LONG0001:00", I2C, ("04f3", "2a1f", "0100"), I2C_TOUCHPAD, [0, 2])
    bus = m.usb_bus(m.pci("0000:00:14.0", "xhci_hcd", "8086", "9D2F", ("103C", "83B9"), ("0C", "03", "30")), 1)
    bridge = m.usb_device(bus + "/1-3", 2, ("04d8", "00dd"), "0100", ("00", "00", "00"), "MCP2221 USB-I2C/UART Combo", "Microchip Technology Inc.")
    adapter = m.device(m.usb_interface(bridge, 2, "usbhid", ("04d8", "00dd"), "0100", ("00", "00", "00"), ("03", "00", "00")) + "/i2c-2", "i2c", attributes={"name": "MCP2221"})
    m.input(m.device(adapter + "/2-0015", "i2c", "elan_i2c", ["MODALIAS=i2c:elan_i2c"], {"modalias": "i2c:elan_i2c"}),
            7, 7, "Elan Touchpad", "i2c-2", I2C, ("04f3", "0001", "0100"), I2C_TOUCHPAD, [0, 2])
    stick = m.device("/sys/devices/platform/adc-joystick", "platform", "adc-joystick", ["MODALIAS=of:NjoystickT(null)Cadc-joystick"], {"modalias": "of:NjoystickT(null)Cadc-joystick"})
    m.input(stick, 8, 8, "adc-joystick", "adc-joystick/input0", HOST, ("0000", "0000", "0000"), GAMEPAD)
    button = m.device("/sys/devices/LNXSYSTM:00/LNXPWRBN:00", "acpi", "button", ["MODALIAS=acpi:LNXPWRBN:"], {"modalias": "acpi:LNXPWRBN:"})
    m.input(button, 9, 9, "Firmware's stick", "LNXPWRBN/button/input0", HOST, ("0000", "0001", "0000"), GAMEPAD)
    m.input(m.pci("0000:00:1c.0", "gameport", "1102", "7003", ("1102", "0040"), ("09", "80", "00")), 10, 10, "Gameport", "pci0000:00:1c.0/gameport0", "0014", ("0001", "0001", "0100"), GAMEPAD)
    return m


MACHINES = (("thinkpad", thinkpad), ("convertible", convertible), ("desk", desk), ("tablet", tablet))


def lay_out(folder):
    """Lays out all machines. Returns for each its name, and the paths of its devices, sorted. The node of the desk's keyboard is a file with
    events of Caps Lock."""
    node = os.path.join(folder, "desk/dev/input/event20")
    os.makedirs(os.path.dirname(node))
    with open(node, "wb") as file:
        file.write(pressed(KEY_CAPSLOCK, CAPS))
    return [(name, sorted(make(os.path.join(folder, name)).asked)) for name, make in MACHINES]


if __name__ == "__main__":
    for name, paths in lay_out(sys.argv[1]):
        for path in paths:
            print(name, path)
