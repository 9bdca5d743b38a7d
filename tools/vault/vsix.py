"""The extension of VS Code as one file, as `vsce` packs it: a zip with the extension's files, a manifest and the types of the files."""
from __future__ import annotations

import io
import json
import zipfile
from pathlib import Path
from typing import Dict
from xml.sax.saxutils import escape, quoteattr

MANIFEST = """\
<?xml version="1.0" encoding="utf-8"?>
<PackageManifest Version="2.0.0" xmlns="http://schemas.microsoft.com/developer/vsx-schema/2011">
  <Metadata>
    <Identity Language="en-US" Id={name} Version={version} Publisher={publisher} />
    <DisplayName>{title}</DisplayName>
    <Description xml:space="preserve">{description}</Description>
    <Categories>{categories}</Categories>
    <Properties>
      <Property Id="Microsoft.VisualStudio.Code.Engine" Value={engine} />
    </Properties>
  </Metadata>
  <Installation>
    <InstallationTarget Id="Microsoft.VisualStudio.Code" />
  </Installation>
  <Dependencies />
  <Assets>
    <Asset Type="Microsoft.VisualStudio.Code.Manifest" Path="extension/package.json" Addressable="true" />
  </Assets>
</PackageManifest>
"""
TYPES = """\
<?xml version="1.0" encoding="utf-8"?>
<Types xmlns="http://schemas.openxmlformats.org/package/2006/content-types">
  <Default Extension=".json" ContentType="application/json" />
  <Default Extension=".js" ContentType="application/javascript" />
  <Default Extension=".vsixmanifest" ContentType="text/xml" />
</Types>
"""
# the earliest time that a zip can say
WHEN = (1980, 1, 1, 0, 0, 0)


def manifest(said: Dict) -> str:
    """The manifest for what a package.json says."""
    return MANIFEST.format(
        name=quoteattr(said["name"]),
        version=quoteattr(said["version"]),
        publisher=quoteattr(said["publisher"]),
        title=escape(said["displayName"]),
        description=escape(said["description"]),
        categories=escape(",".join(said["categories"])),
        engine=quoteattr(said["engines"]["vscode"]),
    )


def pack(folder: Path) -> bytes:
    """The extension in a folder: the same bytes for the same files."""
    said = json.loads((folder / "package.json").read_text(encoding="utf-8"))
    parts = {"extension.vsixmanifest": manifest(said).encode("utf-8"), "[Content_Types].xml": TYPES.encode("utf-8")}
    for file in sorted(it for it in folder.glob("**/*.js*") if it.name != "tasks.json"):
        parts[f"extension/{file.relative_to(folder).as_posix()}"] = file.read_bytes()
    buffer = io.BytesIO()
    with zipfile.ZipFile(buffer, "w", zipfile.ZIP_DEFLATED) as packed:
        for name, data in parts.items():
            entry = zipfile.ZipInfo(name, WHEN)
            entry.external_attr = 0o644 << 16
            entry.compress_type = zipfile.ZIP_DEFLATED
            packed.writestr(entry, data)
    return buffer.getvalue()
