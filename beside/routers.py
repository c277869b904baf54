"""The daemons that `replay` is compared with: the one place where each stands."""
from bird import Bird
from frr import Frr
from gobgp import GoBgp
from openbgpd import OpenBgpd

ROUTERS = {one.name: one for one in (Bird, Frr, OpenBgpd, GoBgp)}
