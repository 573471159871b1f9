"""A certificate for each app and each family of devices: a step that makes it, and one that checks the one that is
kept. A step reads the files of its pair alone, so where none of these changed its result is taken from the cache."""

def _step_impl(ctx):
    printed = ctx.actions.declare_file(ctx.label.name)
    words = [ctx.file.program, ctx.file.family] + ctx.files.certificate
    ctx.actions.run_shell(
        inputs = ctx.files.app + words,
        outputs = [printed],
        # the program runs in the app's folder, where the paths in layers.json begin
        command = """here=$PWD printed=$PWD/$1 verb=$2 program=$PWD/$4
            cd "$3" && shift 4 && "$program" "$verb" --locales android layers.json "${@/#/$here/}" @goals.txt >"$printed" ||
            { cat "$printed" >&2; exit 1; }""",
        arguments = [printed.path, ctx.attr.verb, ctx.attr.folder] + [it.path for it in words],
    )
    return [DefaultInfo(files = depset([printed]))]

step = rule(
    _step_impl,
    attrs = {
        "program": attr.label(allow_single_file = True, doc = "restool"),
        "verb": attr.string(values = ["make", "check"]),
        "folder": attr.string(doc = "the folder of the app"),
        "app": attr.label_list(allow_files = True, doc = "what is in it: tables, layers.json, goals.txt"),
        "family": attr.label(allow_single_file = True, doc = "the box"),
        "certificate": attr.label(allow_single_file = True, doc = "what is checked"),
    },
)

def fleet(program, apps = "apps", families = "families", certificates = "certificates"):
    """The targets made and accepted, and for each pair made/APP/FAMILY.json and accepted/APP/FAMILY."""
    made, accepted = [], []
    for layers in native.glob([apps + "/*/layers.json"]):
        folder = layers[:-len("/layers.json")]
        for family in native.glob([families + "/*.json"]):
            pair = folder[len(apps) + 1:] + family[len(families):-len(".json")]
            inputs = {
                "program": program,
                "folder": folder,
                "app": native.glob([folder + "/*.arsc", folder + "/*.json", folder + "/*.txt"]),
                "family": family,
            }
            made.append("made/{}.json".format(pair))
            accepted.append("accepted/" + pair)
            step(name = made[-1], verb = "make", **inputs)
            step(name = accepted[-1], verb = "check", certificate = "{}/{}.json".format(certificates, pair), **inputs)
    native.filegroup(name = "made", srcs = made)
    native.filegroup(name = "accepted", srcs = accepted)
