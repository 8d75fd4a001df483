"""Which functions tools/building has inlined: those that a source marks, by the names that the module has for them."""
from building import inlining

SOURCE = """\
/// How many.
#[inline(always)]
#[tactic(auto)]
fn place_of(pc: u32) -> usize
    ensures below { result < 4096 }
{
    (pc / 4) as usize % PLACES
}

#[inline(never)]
fn rare() {}

impl<R: Runtime> Processor<R> {
    #[inline(always)]
    pub(crate) fn make(&mut self) {}

    pub fn moves(&self) -> u64 {}
}

impl Policy for Round {
    #[inline(always)]
    fn choose(&mut self) {}
}

#[inline(always)]
pub fn next_of(pc: u32) -> u32 {}
"""


def test_marked_functions_are_found(tmp_path):
    source = tmp_path / "source.rt"
    source.write_text(SOURCE)
    assert list(inlining.marked_in(source)) == ["place_of", "Processor::make", "RoundPolicy::choose", "next_of"]


def test_names_of_the_module_are_shortened():
    assert inlining.short("rv_machine::decode_cache::place_of") == ("rv_machine", "place_of")
    assert inlining.short("cf_core::processor::Processor::make::<#76e0caf0fd146607>") == ("cf_core", "Processor::make")
    assert inlining.short("core::convert::U64FromU32::from") == ("core", "U64FromU32::from")
    assert inlining.short("main") == ("main", "main")
