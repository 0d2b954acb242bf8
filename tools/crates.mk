# SPDX-License-Identifier: Apache-2.0
#
# Proves the crates, each after those that it stands on. It is called by ./route build, which makes
# out/crates.mk of crates.txt: what each crate's stamp needs, and which crates are below it.

include out/crates.mk

# By this sign make lends the processors that it has to spare.
lends = +

crates/%/out/stands:
	$(lends)@tools/prove $* $(below_$*)

.PHONY: proved
.SUFFIXES:
