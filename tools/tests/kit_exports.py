"""Export files of the platform's packages as a kit has them, for tests: by the standard's chapter on export files."""


def text_constant(value):
    return b"\x01" + len(value).to_bytes(2, "big") + value.encode()


def platform_export(package, packages, minor):
    """The export file, in format 2.1 to 2.3, of a package among others; its classes and numbers are as they are read from a table."""
    pool, known = [], {name: info for each in packages for name, info in each.classes.items()}

    def at(constant):
        if constant not in pool:
            pool.append(constant)
        return pool.index(constant).to_bytes(2, "big")

    def of_class(name):
        return at(b"\x07" + at(text_constant(name)))

    classes = b""
    for info in package.classes.values():
        above, each = [], info
        while each.superclass:
            above.insert(0, of_class(each.superclass))  # the uppermost first
            each = known[each.superclass]
        classes += bytes([info.token]) + (b"\x06\x01" if info.is_interface else b"\x00\x01") + of_class(info.name)
        classes += len(above).to_bytes(2, "big") + b"".join(above)
        classes += bytes([len(info.interfaces)]) + b"".join(map(of_class, info.interfaces)) + b"\0\0"
        methods = b""
        count = 0
        for table, flags in (info.static_methods, 9), (info.virtual_methods, 1), (info.interface_methods, 0x401):
            for (name, descriptor), token in table.items():
                is_constructor = name == "<init>"
                methods += bytes([token]) + (1 if is_constructor else flags).to_bytes(2, "big")
                methods += at(text_constant(name)) + at(text_constant(descriptor))
                count += 1
        classes += count.to_bytes(2, "big") + methods + (b"\0" if minor == 3 else b"")
    major, low = package.version
    this = at(b"\x0d\x01" + at(text_constant(package.name)) + bytes([low, major, len(package.aid)]) + package.aid)
    content = bytes.fromhex("00FACADE") + bytes([minor, 2]) + len(pool).to_bytes(2, "big") + b"".join(pool) + this
    if minor == 3:
        content += b"\0"
    return content + bytes([len(package.classes)]) + classes
