import tfmset

font = tfmset.Font.from_file("examples/demo.tfm", size="12pt")
for line in font.set(b"office ox\noffice AV"):
    if isinstance(line, tfmset.Line):
        print(f"{line.width / tfmset.POINT:.2f} points, {len(line.items)} items")
    elif line.reason == "missing":
        print(f"refused: missing, byte {line.place} is {line.code}")
    else:
        print(f"refused: {line.reason}")
