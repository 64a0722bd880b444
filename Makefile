# `make demo` shows healthd to whoever has not seen it; `make` proves and builds it. CONTRIBUTING.md has the rest.
PREFIX = /usr/local
INTEGRATION = yes
BENCH = 3

build: ; @scripts/build
demo: ; @{ [ -x out/healthd ] || scripts/try; } && exec examples/demo/run
try: ; @scripts/try
test: ; @scripts/test
lint: ; @scripts/lint
check: ; @INTEGRATION='$(INTEGRATION)' scripts/check
install: ; @DESTDIR='$(DESTDIR)' scripts/install '$(PREFIX)'
package: ; @scripts/package
bench: ; @HEALTHD='$(CURDIR)/out/healthd' bench/measure.py $(BENCH)
.PHONY: build demo try test lint check install package bench
