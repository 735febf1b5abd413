"""A CAP file: an archive of a package's components."""
import io
import zipfile

from .components import NAMES


def cap_file(package_name, contents):
    """The bytes of the archive; the same components give the same bytes."""
    archive = io.BytesIO()
    with zipfile.ZipFile(archive, "w", zipfile.ZIP_DEFLATED) as made:
        for tag in sorted(contents):
            made.writestr(zipfile.ZipInfo(f"{package_name}/javacard/{NAMES[tag]}.cap"), contents[tag], zipfile.ZIP_DEFLATED)
    return archive.getvalue()
