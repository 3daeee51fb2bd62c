//! What docs/FORMAT.md prints is true.

mod models;
mod reading;

use std::collections::BTreeSet;

use jirvuntsag_packing::{model_a, pack_with_fields, retries, ChunkSpec, ModelSpec, Packed, Role};
use jirvuntsag_text::{read_image, Model};
use models::damaged;
use reading::{block, cells, code, page, rows};

/// The bit, width and value of each row are those of the image's fields, all of them and in order.
fn assert_fields(rows: &[Vec<&str>], packed: &Packed) {
    let printed: Vec<[usize; 3]> =
        rows.iter().map(|row| [0, 1, 2].map(|cell| row[cell].parse().expect("a number"))).collect();
    let wanted: Vec<[usize; 3]> =
        packed.fields.iter().map(|field| [field.at, field.width, field.get(&packed.bytes).into()]).collect();
    assert_eq!(printed, wanted);
}

/// Bytes in hex with blanks between them.
fn hex(bytes: &str) -> Vec<u8> {
    bytes.split(' ').map(|byte| u8::from_str_radix(byte, 16).expect("a byte")).collect()
}

#[test]
fn the_smallest_image_is_as_printed() {
    let page = page("FORMAT.md");
    let packed = pack_with_fields(&ModelSpec { opening: vec![ChunkSpec::nil()], ..ModelSpec::default() });
    let rows = rows(&page, "## The smallest image, bit by bit");
    assert_fields(&rows, &packed);
    assert_bits(&rows);
    assert!(page.contains("Eight bytes, `01 10 00 00 00 00 00 00`"));
    assert_eq!(hex("01 10 00 00 00 00 00 00"), packed.bytes);
}

/// The last cell of each row has the bits of its value.
fn assert_bits(rows: &[Vec<&str>]) {
    for row in rows {
        let (value, width): (u16, usize) = (row[2].parse().expect("a value"), row[1].parse().expect("a width"));
        assert_eq!(code(row[4]), format!("{value:0width$b}"));
    }
}

#[test]
fn the_image_with_a_query_is_as_printed() {
    let page = page("FORMAT.md");
    let (_, section) = page.split_once("## A rule that asks, bit by bit").expect("the section");
    let model = Model::from_text(&block(section, "asks")).expect("a model");
    let packed = pack_with_fields(model.spec());
    let rows = rows(section, "```\n");
    assert_fields(&rows, &packed);
    assert_bits(&rows);
    let printed = section.split('`').nth(1).expect("its bytes");
    assert_eq!((hex(printed), packed.bytes.len()), (packed.bytes, 16));
}

#[test]
fn its_neighbours_are_refused_as_printed() {
    let page = page("FORMAT.md");
    let rows = rows(&page, "Its neighbours");
    assert_eq!(rows.len(), 6);
    for row in rows {
        let refused = read_image(&hex(code(row[0]))).expect_err(row[0]);
        assert_eq!(refused.to_string(), row[1]);
    }
}

#[test]
fn the_counting_model_is_as_printed() {
    let page = page("FORMAT.md");
    let packed = pack_with_fields(&model_a());
    assert_fields(&rows(&page, "## A model, field by field"), &packed);
    assert_eq!(packed.bytes.len(), 71);
}

#[test]
fn they_are_refused_as_printed_where_a_field_is_altered() {
    let page = page("FORMAT.md");
    let asks = Model::from_text(&block(&page, "asks")).expect("a model");
    for (spec, after, count) in [
        (&model_a(), "The same image with one field altered", 7),
        (asks.spec(), "That image with one field altered", 6),
    ] {
        let rows = rows(&page, after);
        assert_eq!(rows.len(), count);
        assert_refused(&rows, &pack_with_fields(spec));
    }
}

/// Each row has a field by its first bit, another value of it, and what is said of the image then.
fn assert_refused(rows: &[Vec<&str>], packed: &Packed) {
    for row in rows {
        let field = packed.field_at(row[0].parse().expect("a bit")).expect("a field that begins there");
        let image = packed.with(field, row[1].parse().expect("a value"));
        assert_eq!(read_image(&image).expect_err(row[2]).to_string(), row[3]);
    }
}

/// The fields of the tables of docs/FORMAT.md in their order, but for the last row, which has none.
const FIELDS: [Role; 31] = [
    Role::Version,
    Role::Buffers,
    Role::Types,
    Role::Rules,
    Role::Facts,
    Role::Failure,
    Role::SlotCount,
    Role::OpeningType,
    Role::OpeningSlot,
    Role::FactType,
    Role::FactSlot,
    Role::Activation,
    Role::Latency,
    Role::Utility,
    Role::Tests,
    Role::Actions,
    Role::Variables,
    Role::TestBuffer,
    Role::TestType,
    Role::TestMask,
    Role::TestTerm,
    Role::Queries,
    Role::QueryBuffer,
    Role::QueryKind,
    Role::ActionBuffer,
    Role::ActionKind,
    Role::ActionMask,
    Role::ActionTerm,
    Role::RequestType,
    Role::ActionMask,
    Role::ActionTerm,
];

/// The numbers by which three models are refused at the first bit of a field of this role: of fields of 16 bits each eighth
/// value, of others all.
fn numbers_of(role: Role) -> BTreeSet<u8> {
    let mut numbers = BTreeSet::new();
    for packed in damaged().map(|spec| pack_with_fields(&spec)) {
        for field in packed.fields.iter().filter(|field| field.role == role) {
            for value in (0..=((1_u32 << field.width) - 1) as u16).step_by(1 << field.width.saturating_sub(13)) {
                let refused = read_image(&packed.with(field, value)).err();
                numbers.extend(refused.filter(|refused| refused.at == Some(field.at)).map(|refused| refused.number()));
            }
        }
    }
    numbers
}

#[test]
fn each_field_has_the_width_and_the_number_printed() {
    let page = page("FORMAT.md");
    let (_, fields) = page.split_once("## The fields").expect("the fields");
    let (fields, _) = fields.split_once("\n## ").expect("what follows them");
    let rows: Vec<Vec<&str>> = fields.lines().filter(|line| line.starts_with('|')).map(cells).collect();
    let rows: Vec<Vec<&str>> = rows.into_iter().filter(|row| row[0] != "field" && row[0] != "---").collect();
    assert_eq!(rows.len(), FIELDS.len() + 1);
    // model A has every field but those of queries
    let a = pack_with_fields(&ModelSpec { rules: [model_a().rules, retries().rules].concat(), ..model_a() });
    for (row, role) in rows.iter().zip(FIELDS) {
        let width = a.nth(role, 0).expect("such a field").width;
        assert_eq!(row[1].split(' ').next(), Some(width.to_string().as_str()), "{row:?}");
        let told = row[3].split("; ").filter_map(|number| number.split(' ').next()?.parse().ok());
        assert_eq!(told.collect::<BTreeSet<u8>>(), numbers_of(role), "{row:?}");
    }
}
