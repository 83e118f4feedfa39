"""The kinds of tables, by the ending of the file of their rows. README.md, one folder up, has their formats."""
import analysis
import asm_text
import bounded_files
import calls
import class_files
import damage
import images
import opcodes
import profiled
import ran

KINDS = {
    'calls': calls.Calls(),
    'damaged': damage.Damaged(),
    'resolved': class_files.Resolved(),
    'verified': class_files.Verified(),
    'read': class_files.Read(),
    'linked': images.Linked(),
    'images': images.Words(),
    'opcodes': opcodes.Opcodes(),
    'asm': asm_text.Assembled(),
    'ran': ran.Ran(),
    'bounded_files': bounded_files.BoundedFiles(),
    'checked': analysis.Checked(),
    'bounded': analysis.Bounded(),
    'all_bounded': analysis.AllBounded(),
    'shaped': analysis.Shaped(),
    'reported': analysis.Reported(),
    'headed': analysis.Headed(),
    'counted': analysis.Counted(),
    'profiled': profiled.Profiled(),
    'needed': analysis.Needed(),
}
