"""Two sites that edit one text, exchange their operations and then show the same: two_sites.py libpeertext.so."""
import sys

from peertext import Site, loaded

library = loaded(sys.argv[1])
one, two = Site(library, 1), Site(library, 2)
one.ask('.t insert 1.0 "milk, bread"')
two.receive(one.export())
one.ask('.t insert 1.0 "buy "')
two.ask(".t replace 1.6 1.11 butter")
two.receive(one.export())
one.receive(two.export())
print("one:", one.ask(".t get 1.0 end"), end="")
print("two:", two.ask(".t get 1.0 end"), end="")
one.free()
two.free()
