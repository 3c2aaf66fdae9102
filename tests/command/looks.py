"""What is looked at: a file of looks for each part of the command. Each look is a function of a build of the command and the folder with the test files."""
import look_check
import look_draw
import look_forms
import look_list
import look_output
import look_stats
import look_use
import look_where


def all_of(tell, folder):
    for module in (look_check, look_where, look_list, look_forms, look_stats, look_draw, look_output, look_use):
        for name, look in sorted(vars(module).items()):
            if name.startswith("look_") and callable(look):
                looked(tell, folder, module.__name__, name, look)


def looked(tell, folder, module, name, look):
    """Looks. What cannot even be read counts as wrong, and the next look is made."""
    try:
        look(tell, folder)
    except Exception as fault:  # whatever a wrong output leads to
        tell.check(False, f"{module}.{name}: {type(fault).__name__}: {fault}")
