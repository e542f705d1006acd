//! Filters are asked, files picked by summaries and summaries pooled without memory from the heap; rows, partition values and
//! summaries of numbers are built without.

use std::alloc::{GlobalAlloc, Layout, System};
use std::cell::Cell;

use weighpick::{
    Columns, Error, Filter, Leaf, Literal, Pick, Refusal, Summary, Transform, Type, Value,
};

thread_local! {
    /// How often this thread has asked for memory.
    static ASKED: Cell<usize> = const { Cell::new(0) };
}

/// The system's heap, with a count.
struct Counting;

// SAFETY: every call is handed on to the system as it is.
unsafe impl GlobalAlloc for Counting {
    unsafe fn alloc(&self, layout: Layout) -> *mut u8 {
        ASKED.with(|asked| asked.set(asked.get() + 1));
        // SAFETY: what this function asks of its caller.
        unsafe { System.alloc(layout) }
    }

    unsafe fn dealloc(&self, memory: *mut u8, layout: Layout) {
        // SAFETY: as above.
        unsafe { System.dealloc(memory, layout) }
    }
}

#[global_allocator]
static HEAP: Counting = Counting;

/// How often memory was asked for in `run`.
fn asked<T>(run: impl FnOnce() -> T) -> (usize, T) {
    let before = ASKED.with(Cell::get);
    let result = run();
    (ASKED.with(Cell::get) - before, result)
}

#[test]
fn no_memory_is_asked_for() -> Result<(), Error> {
    let column = |name| (name, Type::Int, Transform::Truncate(10));
    let (counted, columns) = asked(|| Columns::new(["a", "b"].map(column)));
    assert_ne!(
        counted, 0,
        "a list is kept on the heap, so that the count counts"
    );
    let columns = columns?;
    let values: [Value; 2] = [Literal::Int(10).into(), Value::Missing];
    for text in [
        "a < 15 and not (b > 1 or a = 3)",
        "a < -2147483640",
        "a <",
        "c < 1",
    ] {
        let (counted, answers) = asked(|| {
            let filter = Filter::new(&columns, text);
            let (row, file) = (columns.row(&values)?, columns.partition(&values)?);
            let answers = [
                filter.row(&row),
                filter.project(&file),
                filter.strict_project(&file),
            ];
            let picks = [filter.pick(&file), filter.pick_older(&file)];
            Ok::<_, Error>((answers, filter.check(), picks))
        });
        assert_eq!(counted, 0, "{text}: {answers:?}");
        assert!(answers.is_ok());
    }
    Ok(())
}

#[test]
fn files_are_picked_without() -> Result<(), Error> {
    let leaf = "int truncate[10] IN (5, 15, 25)".parse::<Leaf>()?;
    let pickers = [leaf.picker(), leaf.older_picker()];
    let wrong = Err(Refusal::WrongSummary);
    for (lowest, highest, expected) in [
        (0, 20, Ok(Pick::Read)),
        (10, 300, Ok(Pick::Read)),
        (100, 300, Ok(Pick::Skip)),
        (2, 1, wrong),
    ] {
        let (counted, picked) = asked(|| {
            let file = Summary::between(&Literal::Int(lowest), &Literal::Int(highest))?;
            let file = file.with_missing(true);
            Ok::<_, Error>(pickers.each_ref().map(|picker| picker.pick_summary(&file)))
        });
        assert_eq!(counted, 0, "{lowest} to {highest}: {picked:?}");
        assert_eq!(picked?, [expected; 2], "{lowest} to {highest}");
    }
    Ok(())
}

#[test]
fn files_are_pooled_without() -> Result<(), Error> {
    let file = |lowest, highest| Summary::between(&Literal::Int(lowest), &Literal::Int(highest));
    let files = [file(0, 20)?, Summary::empty(Type::Int), file(10, 300)?];
    let (counted, pooled) = asked(|| Summary::pool_all(&files));
    assert_eq!((counted, pooled?), (0, Some(file(0, 300)?)));
    for (other, expected) in [
        (file(2, 1)?, Refusal::WrongSummary),
        (Summary::empty(Type::Date), Refusal::DifferentTypes),
    ] {
        let (counted, refused) = asked(|| files[0].pool(&other));
        assert_eq!((counted, refused), (0, Err(expected)));
    }
    Ok(())
}
