#!/usr/bin/env python3
"""Writes a source file of ordinary code, of about as many KiB as the first argument says, to standard output.

    python3 bench/ordinary_source.py 1024 > /tmp/big.wy
    time ./wyvern format /tmp/big.wy > /dev/null
"""

import sys

ITEM = """type Store{n}
  effect Read
  effect Write
  effect Both = {{Read, Write}}
  def load(name: String): {{Read}} String
  def save(name: String, text: String): {{Both}} Bool
resource module store{n}(disk: Folder, log: Logger): Store{n}
  use clean
  effect Read = {{disk.Read}}
  effect Write = {{disk.Write, log.Log}}
  init: {{}}
  val limit: Int = 1024 * (4 + {n})
  var last: String = ""
  def load(name: String): {{Read}} String = disk.read(clean.safe(name))
  def save(name: String, text: String): {{Read, Write}} Bool
    val size = text_size(text)
    if size <= limit && !(name == "")
      disk.write(clean.safe(name), text ++ "\\n")
      last = name
      size - 1 > -{n}
    else
      log.log("too long: " ++ text_show(size))
      false

"""


def main() -> None:
    wanted = int(sys.argv[1]) * 1024
    written = 0
    number = 0
    while True:
        item = ITEM.format(n=number)
        if written + len(item) > wanted:
            break
        sys.stdout.write(item)
        written += len(item)
        number += 1


main()
