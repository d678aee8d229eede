#!/usr/bin/env python3
"""Writes what `udevadm info --export-db` prints of a root that has a sysfs of tests/run/sysfs_tree.py: the devices in the order of their
paths, each with its path, its node, and its properties. These are the kernel's, and those of udev's builtins that tell an attribute.
usage: tests/run/udev_export.py ROOT"""
import os
import sys

# What udev leaves as it is where it codes a text (`encode_devnode_name`); it leaves UTF-8, too.
PLAIN = set(b"#+-.:=@_0123456789ABCDEFGHIJKLMNOPQRSTUVWXYZabcdefghijklmnopqrstuvwxyz")


def coded(text):
    """A text as usb_id and v4l_id code it."""
    return "".join(c if ord(c) > 127 or ord(c) in PLAIN else "\\x%02x" % ord(c) for c in text)


def attribute(folder, name):
    """An attribute's text; None if there is none."""
    try:
        with open("%s/%s" % (folder, name), encoding="utf-8") as file:
            return file.read().rstrip("\n")
    except OSError:
        return None


def link_name(folder, name):
    """The last name of a link's target; None if there is no such link."""
    link = "%s/%s" % (folder, name)
    return os.path.basename(os.path.realpath(link)) if os.path.islink(link) else None


def properties(folder, path):
    """The properties of the device of a folder."""
    lines = (attribute(folder, "uevent") or "").split("\n")
    subsystem, driver = link_name(folder, "subsystem"), link_name(folder, "driver")
    found = {"DEVPATH": path, "SUBSYSTEM": subsystem}
    if driver:
        found["DRIVER"] = driver
    found.update(line.split("=", 1) for line in lines if line)
    if "DEVNAME" in found:
        found["DEVNAME"] = "/dev/" + found["DEVNAME"]
    if subsystem == "usb" and found.get("DEVTYPE") == "usb_device":
        name = attribute(folder, "product")
        number = attribute(folder, "idProduct")
        found.update(ID_MODEL_ENC=coded(name or number), ID_MODEL_ID=number, ID_VENDOR_ID=attribute(folder, "idVendor"))
    if subsystem == "net" and attribute(folder, "addr_assign_type") == "0" and attribute(folder, "type") == "1" \
            and attribute(folder, "ifindex") == attribute(folder, "iflink"):
        found["ID_NET_NAME_MAC"] = ("wlx" if found.get("DEVTYPE") == "wlan" else "enx") + attribute(folder, "address").replace(":", "")
    if subsystem == "video4linux":
        found["ID_V4L_PRODUCT"] = attribute(folder, "name")
    if subsystem == "power_supply":
        for name in ("model_name", "charge_control_start_threshold", "charge_control_end_threshold"):
            if attribute(folder, name) is not None:
                found["POWER_SUPPLY_" + name.upper()] = attribute(folder, name)
    return found


def export(root):
    """What udevadm prints."""
    found = []
    for folder, _, names in os.walk(root + "/sys/devices"):
        if "uevent" in names and os.path.islink(folder + "/subsystem"):
            found.append(folder)
    text = ""
    for folder in sorted(found):
        path = folder[len(root + "/sys"):]
        told = properties(folder, path)
        text += "P: %s\n" % path
        text += "M: %s\n" % os.path.basename(path)
        text += "U: %s\n" % told["SUBSYSTEM"]
        if "DEVNAME" in told:
            text += "N: %s\nL: 0\n" % told["DEVNAME"][len("/dev/"):]
        text += "".join("E: %s=%s\n" % property for property in told.items()) + "\n"
    return text


if __name__ == "__main__":
    sys.stdout.write(export(sys.argv[1]))
