# Rules of GNU make for programs in Vault. Include this file, then say what there is:
#
#   $(eval $(call vault_module,disk,interface.v,disk.v))              tests the module disk.v beside its interface: the target disk.tested
#   $(eval $(call vault_program,driver,driver.v))                     checks driver.v and writes its C text: the target driver.c
#   $(eval $(call vault_link,service,interface.v,disk.v,user.v))      links two modules: the target service.c
#   $(eval $(call vault_executable,driver,driver.c,posix.c))          compiles driver.c with the runtime and a host: the target driver
#
# Each C file is verified from its own text before it counts as made. `make vault-check` makes all of them, `make -j` tests modules side by side.
# VAULT names the command, if `vault` isn't in the PATH; VAULT_RUNTIME is the folder of the runtime. A host is a C file of your own, or one of the
# runtime's: replay.c, posix.c.

VAULT ?= vault
VAULT_RUNTIME := $(or $(VAULT_RUNTIME),$(dir $(lastword $(MAKEFILE_LIST)))../runtime)
VAULT_SOURCES = $(addprefix $(VAULT_RUNTIME)/,vault_main.c vault_rt.c numbers.c)

.PHONY: vault-check
vault-check:

# What a command writes becomes its target only if it succeeds; if not, its words are shown.
define vault_written
	@$(VAULT) $(1) > $@.part || { cat $@.part >&2; rm -f $@.part; exit 1; }
	@$(VAULT) verify $@.part > /dev/null || { echo "$@: not verified" >&2; rm -f $@.part; exit 1; }
	@mv $@.part $@
endef

# vault_module NAME,INTERFACE,MODULE
define vault_module
vault-check: $(1).tested
$(1).tested: $(2) $(3)
	@$$(VAULT) module $(2) $(3)
	@touch $$@
endef

# vault_program NAME,FILE
define vault_program
vault-check: $(1).c
$(1).c: $(2)
	$$(call vault_written,emit $(2))
endef

# vault_link NAME,INTERFACE,MODULE,MODULE
define vault_link
vault-check: $(1).c
$(1).c: $(2) $(3) $(4)
	$$(call vault_written,link $(2) $(3) $(4))
endef

# vault_executable NAME,TEXT,HOST
define vault_executable
$(1): $(2) $(wildcard $(3))
	$$(CC) -std=c99 -O2 $$(CFLAGS) -I. -I$$(VAULT_RUNTIME) -DVAULT_PROGRAM='"$(2)"' -o $$@ $$(VAULT_SOURCES) $$(firstword $$(wildcard $(3)) $$(VAULT_RUNTIME)/$(3)) $$(LDLIBS)
endef
