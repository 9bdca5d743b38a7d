"""Rules of Bazel for programs in Vault: each check, link and verification is an action, so modules are checked apart, on as many machines as there are.

    load("//build/bazel:vault.bzl", "vault_module", "vault_program")

    vault_module(name = "disk", interface = "interface.v", src = "disk.v")
    vault_module(name = "user", interface = "interface.v", src = "user.v")
    vault_program(name = "service", modules = [":disk", ":user"])     # links: service.c
    vault_program(name = "driver", src = "driver.v")                  # one text: driver.c

The program is the target of `vaultc`, by default `//build/bazel:vaultc`: a file that is the proved program.
"""

VaultModule = provider(doc = "A module that was tested.", fields = {
    "interface": "the file of its interface",
    "source": "its file",
    "tested": "a file that is there if it passed",
})

_VAULTC = attr.label(
    default = Label("//build/bazel:vaultc"),
    allow_single_file = True,
    cfg = "exec",
    executable = True,
    doc = "the program vaultc",
)

def _run(ctx, mnemonic, words, inputs, output, keeps):
    """An action that runs the program. What it writes is shown, and fails the action, if the program refuses; `keeps`: else it is the output."""
    ctx.actions.run_shell(
        mnemonic = mnemonic,
        inputs = inputs,
        tools = [ctx.executable.vaultc],
        outputs = [output],
        arguments = [ctx.executable.vaultc.path, output.path] + words,
        command = 'program=$1 output=$2; shift 2; "$program" "$@" > "$output.part" || { cat "$output.part" >&2; exit 1; }; ' +
                  ('mv "$output.part" "$output"' if keeps else 'rm "$output.part"; touch "$output"'),
        progress_message = mnemonic + " %s" % ctx.label,
    )

def _module(ctx):
    tested = ctx.actions.declare_file(ctx.label.name + ".tested")
    files = [ctx.file.interface, ctx.file.src]
    _run(ctx, "VaultModule", ["module"] + [file.path for file in files], files, tested, False)
    return [
        DefaultInfo(files = depset([tested])),
        VaultModule(interface = ctx.file.interface, source = ctx.file.src, tested = tested),
    ]

vault_module = rule(
    implementation = _module,
    doc = "Tests a module beside its interface alone.",
    attrs = {
        "interface": attr.label(mandatory = True, allow_single_file = [".v", ".vi"], doc = "the interface"),
        "src": attr.label(mandatory = True, allow_single_file = [".v"], doc = "the module"),
        "vaultc": _VAULTC,
    },
)

def _program(ctx):
    if bool(ctx.file.src) == bool(ctx.attr.modules):
        fail("a program has either src or modules")
    if ctx.file.src:
        words, inputs, tests = ["emit", ctx.file.src.path], [ctx.file.src], []
    else:
        modules = [module[VaultModule] for module in ctx.attr.modules]
        if len(modules) != 2 or modules[0].interface != modules[1].interface:
            fail("a program is linked of two modules of one interface")
        inputs = [modules[0].interface] + [module.source for module in modules]
        words, tests = ["link"] + [file.path for file in inputs], [module.tested for module in modules]
    text = ctx.actions.declare_file(ctx.label.name + ".c")
    verified = ctx.actions.declare_file(ctx.label.name + ".verified")
    _run(ctx, "VaultText", words, inputs + tests, text, True)
    _run(ctx, "VaultVerify", ["verify", text.path], [text], verified, False)
    return [DefaultInfo(files = depset([text, verified]))]

vault_program = rule(
    implementation = _program,
    doc = "Checks a program, or links two modules, and writes its C text with a certificate, which is verified from that text alone.",
    attrs = {
        "src": attr.label(allow_single_file = [".v"], doc = "the program, if it is in one file"),
        "modules": attr.label_list(providers = [VaultModule], doc = "two modules of one interface"),
        "vaultc": _VAULTC,
    },
)
