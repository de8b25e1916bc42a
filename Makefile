# Radar picture archive. 'make' builds, 'make install' installs, 'make package' makes the Debian package, 'make check' runs the gate.
#
#   make install                           under /usr/local, as root
#   make install PREFIX=$HOME/.local       under another folder
#   make install PREFIX=/usr DESTDIR=root  below a folder that stands for /
#
# BINDIR, LIBDIR, INCLUDEDIR, MANDIR, DOCDIR, BASHDIR, ZSHDIR and FISHDIR place a part by itself. Variables reach host/package/install, which has the
# defaults, from the command line or the environment. RADAR_ARCHIVE_LIB_DIR is the folder of the engine's library where it is not to be proved here.

# What the products are made of: sources, and the engine's library where it is there already.
sources := $(shell find crates crates.txt include host/Cargo.* host/command host/radar-archive host/package -path 'crates/*/out' -prune -o -type f -print)
library := $(wildcard $(or $(RADAR_ARCHIVE_LIB_DIR),target/staticlib)/libexports.*)

all: target/product

target/product: $(sources) $(library)
	host/package/products

install: all
	host/package/install

package:
	host/package/build

check:
	.ci/run

.PHONY: all install package check
