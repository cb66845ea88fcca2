"""The tables of `surface.py`: the public items, the calls of libraries that have to be there, and what stands by hand nonetheless."""

from by_hand import ERRORS, FRAMES, JSON, NAMES, NUMBERS, UTF8

# The public items by crate. A call that takes memory takes the allocator first, behind `self` and the runtime, unless what
# it grows has one.
SURFACE = """
struct avro_name::Namespace
fn avro_name::Namespace::read(Global, &str) -> Result<Namespace, NameError>
fn avro_name::Namespace::eq(&self, &Namespace) -> bool
fn avro_name::Namespace::cmp(&self, &Namespace) -> Ordering
fn avro_name::Namespace::hash<H: Hasher>(&self, &mut H)
struct avro_name::FullName
fn avro_name::FullName::read(Global, &str, &Namespace) -> Result<FullName, NameError>
fn avro_name::FullName::simple(&self) -> &str
fn avro_name::FullName::namespace(&self) -> &str
fn avro_name::FullName::eq(&self, &FullName) -> bool
fn avro_name::FullName::cmp(&self, &FullName) -> Ordering
fn avro_name::FullName::hash<H: Hasher>(&self, &mut H)
enum avro_name::NameError { EmptyPart, BadCharacter, PrimitiveName, OutOfMemory }

struct avro_schema::NodeId(u32)
enum avro_schema::Node { Null, Boolean, Int, Long, Bytes, Str, Array(NodeId), Map(NodeId), Union(Vec<NodeId>), Record(RecordNode), Enum(EnumNode), Fixed(FixedNode) }
struct avro_schema::Schema
fn avro_schema::Schema::root(&self) -> NodeId
fn avro_schema::Schema::node(&self, NodeId) -> &Node
fn avro_schema::Schema::len(&self) -> usize
fn avro_schema::Schema::has(&self, NodeId) -> bool
struct avro_schema::RecordNode { name: FullName, aliases: Vec<FullName>, fields: Vec<Field> }
struct avro_schema::Field { name: String, aliases: Vec<String>, node: NodeId, default: Option<Datum> }
struct avro_schema::EnumNode { name: FullName, aliases: Vec<FullName>, symbols: Vec<String>, default: Option<u32> }
struct avro_schema::FixedNode { name: FullName, aliases: Vec<FullName>, size: u32 }
struct avro_schema::Draft
fn avro_schema::Draft::new(Global) -> Draft
fn avro_schema::Draft::add(&mut self, Node) -> Result<NodeId, DraftError>
fn avro_schema::Draft::finish(self) -> Result<Schema, DraftError>
enum avro_schema::DraftError { UnknownNode, DuplicateName, InvalidName, InvalidUnion, InvalidSymbols, DuplicateField, InvalidDefault, LimitExceeded, OutOfMemory }
enum avro_schema::Datum { Null, Bool(bool), Int(i32), Long(i64), Bytes(Vec<u8>), Str(String), Array(Vec<Datum>), Map(Vec<(String, Datum)>), Union(u32, Box<Datum>), Record(Vec<Datum>), Enum(u32), Fixed(Vec<u8>) }
fn avro_schema::fits(Global, &Schema, NodeId, &Datum) -> Result<bool, Memory>
fn avro_schema::size(&Datum) -> u64
fn avro_schema::depth(&Datum) -> u64
struct avro_schema::Memory
struct avro_schema::Limits
fn avro_schema::Limits::new(u32, u32, u32) -> Option<Limits>
fn avro_schema::Limits::default() -> Limits

fn avro_schema_json::read_schema(Global, &[u8]) -> Result<Schema, SchemaError>
enum avro_schema_json::SchemaError { NotJson, UnknownName, DuplicateName, InvalidName, InvalidDeclaration, InvalidUnion, InvalidSymbols, DuplicateField, InvalidDefault, UnsupportedType, UnsupportedNumber, LimitExceeded, OutOfMemory }
fn avro_schema_json::show(Global, &Schema, NodeId, &Datum) -> Result<String, Memory>
struct avro_schema_json::ReaderText
fn avro_schema_json::ReaderText::read(Global, &[u8]) -> Result<ReaderText, SchemaError>
fn avro_schema_json::ReaderText::text(&self) -> &[u8]
fn avro_schema_json::ReaderText::schema(&self) -> &Schema

fn avro_zigzag::write_long(i64) -> ([u8; 10], usize)
fn avro_zigzag::read_long(&[u8]) -> Result<(i64, usize), VarError>
fn avro_zigzag::read_int(&[u8]) -> Result<(i32, usize), VarError>
enum avro_zigzag::VarError { EndOfInput, NotShortest, OutOfRange }

fn avro_binary::encode(Global, &Schema, NodeId, &Datum, &mut Vec<u8>) -> Result<(), EncodeError>
enum avro_binary::EncodeError { DoesNotFit, OutOfMemory }
fn avro_binary::decode(Global, &Schema, NodeId, &[u8], &Limits) -> Result<(Datum, usize), ReadError>
enum avro_binary::ReadError { EndOfInput { place: usize }, InvalidNumber { place: usize }, InvalidBoolean { place: usize }, InvalidText { place: usize }, UnknownIndex { place: usize }, InvalidLength { place: usize }, WrongBlockSize { place: usize }, DuplicateKey { place: usize }, LimitExceeded, OutOfMemory }
fn avro_binary::walk(Global, &Schema, NodeId, &[u8], &Limits) -> Result<usize, ReadError>
struct avro_binary::Cursor<'a>
fn avro_binary::Cursor::boolean(&mut self) -> Result<bool, ReadError>
fn avro_binary::Cursor::int(&mut self) -> Result<i32, ReadError>
fn avro_binary::Cursor::long(&mut self) -> Result<i64, ReadError>
fn avro_binary::Cursor::bytes(&mut self) -> Result<&'a [u8], ReadError>
fn avro_binary::Cursor::string(&mut self) -> Result<&'a str, ReadError>
fn avro_binary::Cursor::fixed(&mut self, u32) -> Result<&'a [u8], ReadError>
fn avro_binary::Cursor::key(&mut self, &mut Keys<'a>) -> Result<&'a str, ReadError>
fn avro_binary::Cursor::index(&mut self, usize) -> Result<usize, ReadError>
fn avro_binary::Cursor::block(&mut self) -> Result<Option<Block>, ReadError>
fn avro_binary::Cursor::enter(&mut self) -> Result<(), ReadError>
fn avro_binary::Cursor::leave(&mut self)
fn avro_binary::laws::prefix()

fn avro_canonical::canonical(Global, &Schema) -> Result<String, Memory>
fn avro_canonical::fingerprint(Global, &Schema) -> Result<[u8; 32], Memory>
fn avro_canonical::fingerprint_text(Global, &Schema) -> Result<String, Memory>
fn avro_canonical::laws::same_encodings()
fn avro_canonical::laws::read_again()

fn avro_resolve::matches(&Schema, NodeId, &Schema, NodeId) -> bool
fn avro_resolve::source(&RecordNode, &Field) -> Option<usize>
fn avro_resolve::first_match(&Schema, NodeId, &Schema, NodeId) -> Option<usize>
fn avro_resolve::resolve(Global, &Schema, &Schema, &Datum) -> Result<Datum, ResolveError>
enum avro_resolve::ResolveError { Fault(Fault), Memory }
struct avro_resolve::Fault { kind: FaultKind, path: Vec<usize> }
enum avro_resolve::FaultKind { NoMatch, NoBranch, MissingField(usize), NoSymbol, NotUtf8 }
trait avro_resolve::Build
type avro_resolve::Build::Out: Drop
type avro_resolve::Build::Items: Drop
type avro_resolve::Build::Entries: Drop
fn avro_resolve::Build::null(&mut self, Global) -> Result<Self::Out, AllocError>
fn avro_resolve::Build::boolean(&mut self, Global, bool) -> Result<Self::Out, AllocError>
fn avro_resolve::Build::int(&mut self, Global, i32) -> Result<Self::Out, AllocError>
fn avro_resolve::Build::long(&mut self, Global, i64) -> Result<Self::Out, AllocError>
fn avro_resolve::Build::bytes(&mut self, Global, &[u8]) -> Result<Self::Out, AllocError>
fn avro_resolve::Build::string(&mut self, Global, &str) -> Result<Self::Out, AllocError>
fn avro_resolve::Build::fixed(&mut self, Global, &[u8]) -> Result<Self::Out, AllocError>
fn avro_resolve::Build::symbol(&mut self, Global, u32) -> Result<Self::Out, AllocError>
fn avro_resolve::Build::branch(&mut self, Global, u32, Self::Out) -> Result<Self::Out, AllocError>
fn avro_resolve::Build::fields(&mut self, Global, Vec<Self::Out>) -> Result<Self::Out, AllocError>
fn avro_resolve::Build::items(&mut self, Global) -> Result<Self::Items, AllocError>
fn avro_resolve::Build::item(&mut self, Global, &mut Self::Items, Self::Out) -> Result<(), AllocError>
fn avro_resolve::Build::array(&mut self, Global, Self::Items) -> Result<Self::Out, AllocError>
fn avro_resolve::Build::entries(&mut self, Global) -> Result<Self::Entries, AllocError>
fn avro_resolve::Build::entry(&mut self, Global, &mut Self::Entries, &str, Self::Out) -> Result<(), AllocError>
fn avro_resolve::Build::map(&mut self, Global, Self::Entries) -> Result<Self::Out, AllocError>
fn avro_resolve::Build::default(&mut self, Global, &Datum) -> Result<Self::Out, AllocError>
struct avro_resolve::Tree
struct avro_resolve::Nothing
struct avro_packed::Packed
fn avro_resolve::read_resolved<B: Build>(Global, &Schema, &Schema, &[u8], &Limits, &mut B) -> Result<(B::Out, usize), ReadResolveError>
enum avro_resolve::ReadResolveError { Read(ReadError), Resolve(Fault) }
fn avro_resolve::read_own<B: Build>(Global, &Schema, &[u8], &Limits, &mut B) -> Result<(B::Out, usize), ReadError>
struct avro_resolve::Plan<'a>
fn avro_resolve::Plan::new(Global, &'a Schema, &'a Schema, &[(NodeId, NodeId)]) -> Result<Plan<'a>, Memory>
fn avro_resolve::Plan::read<B: Build>(&self, Global, &[u8], &Limits, &mut B) -> Result<(B::Out, usize), ReadResolveError>

struct avro_judge::JudgeLimits
fn avro_judge::JudgeLimits::new(u32, u32, Limits) -> Option<JudgeLimits>
fn avro_judge::JudgeLimits::default() -> JudgeLimits
fn avro_judge::judge<'a>(Global, &'a Schema, &'a Schema, &JudgeLimits) -> Result<Verdict<'a>, Memory>
enum avro_judge::Verdict<'a> { Approved(Approved<'a>), Refuted(Refutation), Undecided(Cause) }
enum avro_judge::Cause { Pairs, Size, Depth }
struct avro_judge::Approved<'a>
fn avro_judge::Approved::read<B: Build>(&self, Global, &[u8], &Limits, &mut B) -> Result<(B::Out, usize), ReadError>
fn avro_judge::Approved::certificate(&self, Global) -> Result<Certificate, Memory>
fn avro_judge::confirm<'a>(Global, &'a Schema, &'a Schema, &Certificate) -> Result<Option<Approved<'a>>, Memory>
struct avro_judge::Refutation { datum: Datum, fault: Fault }
fn avro_judge::check_refutation(Global, &Schema, &Schema, &Datum) -> Result<Option<Fault>, Memory>
struct avro_judge::Certificate
fn avro_judge::Certificate::read(Global, &[u8]) -> Result<Certificate, CertError>
fn avro_judge::Certificate::write(&self, Global) -> Result<Vec<u8>, Memory>
enum avro_judge::CertError { Malformed, NumberTooLarge, OutOfMemory }

struct avro_history::HistoryCert
fn avro_history::HistoryCert::new(Vec<Certificate>) -> HistoryCert
fn avro_history::HistoryCert::read(Global, &[u8]) -> Result<HistoryCert, CertError>
fn avro_history::HistoryCert::write(&self, Global) -> Result<Vec<u8>, Memory>
fn avro_history::confirm_history<'a>(Global, &'a [Schema], &'a Schema, &HistoryCert) -> Result<Option<Vec<Approved<'a>>>, Memory>

trait avro_container::Input
fn avro_container::Input::take(&mut self, &mut [u8]) -> Result<usize, DeviceFault>
trait avro_container::Output
fn avro_container::Output::put(&mut self, &[u8]) -> Result<usize, DeviceFault>
fn avro_container::Output::flush(&mut self) -> Result<(), DeviceFault>
struct avro_container::DeviceFault
struct avro_container::ReadInput<R>
fn avro_container::ReadInput::new(R) -> ReadInput<R>
struct avro_container::WriteOutput<W>
fn avro_container::WriteOutput::new(W) -> WriteOutput<W>
struct avro_container::FileLimits
fn avro_container::FileLimits::new(u32, u32, u32, Limits) -> Option<FileLimits>
fn avro_container::FileLimits::default() -> FileLimits
struct avro_container::Header
fn avro_container::Header::read<I: Input>(Global, &mut I, &FileLimits) -> Result<Header, CopyError>
fn avro_container::Header::metadata(&self) -> &[(String, Vec<u8>)]
fn avro_container::Header::sync(&self) -> &[u8; 16]
fn avro_container::Header::schema(&self) -> &Schema
struct avro_container::Blocks<'a>
fn avro_container::Blocks::new(Global, &'a Header, &FileLimits) -> Blocks<'a>
fn avro_container::Blocks::next<I: Input>(&mut self, &mut I) -> Result<Option<Block<'a>>, CopyError>
struct avro_container::Block<'a>
fn avro_container::Block::count(&self) -> u32
fn avro_container::Block::body(&self) -> &[u8]
fn avro_container::Block::read<B: Build>(&self, Option<&ReaderText>, &mut B) -> Result<Vec<B::Out>, CopyError>
struct avro_container::Sink
fn avro_container::Sink::start<O: Output>(Global, &mut O, &[(String, Vec<u8>)], [u8; 16]) -> Result<Sink, CopyError>
fn avro_container::Sink::block<O: Output>(&mut self, &mut O, u32, &[u8]) -> Result<(), CopyError>
struct avro_container::Copier<'a>
fn avro_container::Copier::new(Global, Option<&'a ReaderText>, Option<[u8; 16]>, &FileLimits) -> Copier<'a>
fn avro_container::Copier::step<I: Input, O: Output>(&mut self, &mut I, &mut O) -> Result<Step, CopyError>
fn avro_container::Copier::ahead(&self) -> &[u8]
enum avro_container::Step { Header, Block(u64), End }
struct avro_container::Counts { items: u64, blocks: u64 }
fn avro_container::check<I: Input>(Global, &mut I, &FileLimits) -> Result<Counts, CopyError>
fn avro_container::copy<'a, I: Input, O: Output>(Global, &mut I, &mut O, Option<&'a ReaderText>, Option<[u8; 16]>, &FileLimits) -> Result<Counts, CopyError>
enum avro_container::CopyError { NoMagic, InvalidMetadata(ReadError), NoSchema, InvalidSchema(SchemaError), UnknownCodec, InvalidCount(u64, CountError), BytesLeft(u64), WrongMarker(u64), LimitExceeded(LimitPlace), InvalidDatum(u64, u32, ReadError), UnresolvedDatum(u64, u32, Fault), InputFailed, OutputFailed, OutOfMemory, FailedBefore, CutHeader, CutBlock(u64) }

fn avro_lines::show<I: Input, O: Output>(Global, &mut I, &mut O, Option<&Schema>, Option<u64>, &FileLimits) -> Result<(), CopyError>

fn avro_tool::run<R: Files + Clock + AllocGlobal, I: Read, O: Write, E: Write>(&R, &[String], &mut I, &mut O, &mut E) -> u8
"""

# What each library is there for: the library, the file, and a path in its code, over its imports, or some of which one has to be
# there. A type has its first parameter; a path that begins with a dot is a call on a value.
NEEDED = """
# A fingerprint is a SHA-256 digest, in digits.
sha2 avro_canonical/src/digest.rt sha2::Sha256::new
hex avro_canonical/src/digest.rt hex::encode
# The seeds of hashes are digests.
sha2 avro_texts/src/seeded.rt sha2::Sha512::new
# The marker of --sync is read from digits.
hex avro_tool/src/number_options.rt hex::FromHex::from_hex
# The grammar of the words, and what reads them.
clap avro_tool/src/grammar.rt clap::Command::new
clap avro_tool/src/grammar.rt clap::Arg::new
clap avro_tool/src/command_line.rt clap::Command
clap avro_tool/src/command_line.rt .try_get_matches_from_mut
# The texts of schemas are read, for a schema and for the reasons why there is none.
serde_json avro_schema_json/src/read.rt serde_json::Value::from_slice
serde_json avro_why/src/reasons.rt serde_json::Value::from_slice or serde_json::Value::from_str
# Displays, the lines of --json and the metadata of a header are written.
json avro_display/src/text.rt json::Writer::new
json avro_display/src/text.rt .string or .token
serde_json avro_answer/src/json_object.rt serde_json::Value
serde_json avro_tool/src/commands/header.rt serde_json::Value
# Bytes from outside become text by one function.
simdutf8 avro_cursor/src/text.rt simdutf8::compat::from_utf8
avro_cursor avro_cursor/src/cursor/elements.rt crate::text::text_of
avro_cursor avro_binary/src/leaves.rt avro_cursor::text_of
avro_cursor avro_file/src/header/properties.rt avro_cursor::text_of
avro_cursor avro_resolve/src/resolving/leaves.rt avro_cursor::text_of
# The names of a text, of its fields and symbols, and those of two schemas.
indexmap avro_schema_json/src/declarations/name_table.rt indexmap::IndexSet<Namespace>
indexmap avro_schema_json/src/declarations/name_table.rt indexmap::IndexMap<(u32, String)>
indexmap avro_schema_json/src/symbol_indices.rt indexmap::IndexMap<String>
indexmap avro_schema_json/src/repeats.rt indexmap::IndexMap<&str>
indexmap avro_schema_json/src/defaults/edges.rt indexmap::IndexMap<&str>
indexmap avro_schema_json/src/defaults/fields.rt indexmap::IndexMap<&str>
indexmap avro_schema_json/src/defaults/walk.rt indexmap::IndexMap<&str>
indexmap avro_texts/src/texts.rt indexmap::IndexSet<&str>
avro_texts avro_compare/src/type_names.rt avro_texts::Texts::new
avro_texts avro_compare/src/part_numbers.rt avro_texts::Texts::new
indexmap avro_why/src/names.rt indexmap::IndexSet<&str>
indexmap avro_why/src/names.rt indexmap::IndexMap<(usize, &str)>
indexmap avro_why/src/nodes.rt indexmap::IndexMap<&str>
"""

# The reasons of the exceptions.
KEYS = "keys of data or of metadata, which are no names of a schema"
ORDERED = "a display has the names of fields in the order of their bytes"
SORTED = "that no name repeats is told by sorting references; nothing is looked up there"
LISTED = "the texts of one array with their places, in their order; none is looked up there"
CUT = "a long text is cut at the start of a character; what is left is checked by text_of"
SPELLED = "the canonical form is JSON whose attributes have an order of their own, which no Map of serde_json keeps; a clause spells it"
MEMBER = "a boolean in a line of JSON; a clause says that the whole is serde_json's text"
AROUND = "brackets around what a writer has made; a clause says that the whole is serde_json's text"
LINE = "constant members of a line of JSON; a clause or a test spells the line"
STEP = "an entry in a path, which is no JSON"
QUOTED = "a message has a word in quotes, or without those that serde_json puts; it is no JSON"

# What stands by hand nonetheless: the rule, the file, the reason, and each thing that stands there, with how often.
EXCEPTIONS = [
    (UTF8, "avro_cursor/src/text.rt", "the one function: simdutf8 takes longer to start than short texts take in all", {"text_of": 1}),
    (UTF8, "avro_display/src/display.rt", "a text that was just made of texts: this check cannot fail", {"show_by": 1}),
    (UTF8, "avro_why/src/shortened.rt", CUT, {"boundary": 2, "ends_of": 2}),
    (NAMES, "avro_cursor/src/keys.rt", KEYS, {"&[u8]": 2}),
    (NAMES, "avro_file/src/header/properties.rt", KEYS, {"String": 3}),
    (NAMES, "avro_show/src/composing.rt", KEYS, {"String": 1}),
    (NAMES, "avro_show/src/spans.rt", KEYS, {"String": 1}),
    (NAMES, "avro_display/src/members.rt", ORDERED, {"&str": 3}),
    (NAMES, "avro_display/src/putting.rt", ORDERED, {"&str": 1}),
    (NAMES, "avro_schema/src/uniqueness.rt", SORTED, {"are_unique: sort": 1}),
    (NAMES, "avro_schema/src/datum.rt", "a datum is a tree of values, and keeps no names", {"Datum": 1}),
    (NAMES, "avro_tool/src/grammar.rt", "a word is compared with the name of each command, of which there are eleven", {"commands_of: any": 1}),
    (NAMES, "avro_why/src/definitions.rt", LISTED, {"Vec<(&str, PlaceId)>": 1}),
    (JSON, "avro_answer/src/datum_texts.rt", LINE, {'{"bytes":': 1, ',"datum":': 1}),
    (FRAMES, "avro_answer/src/datum_texts.rt", AROUND, {"}\\n": 1}),
    (JSON, "avro_answer/src/explaining.rt", LINE, {'{"verdict":"yes","faults":[]}\\n': 1, '{"verdict":"undecided","cause":"Pairs"}\\n': 1}),
    (FRAMES, "avro_answer/src/fault_lines.rt", AROUND, {"[": 1, "]}\\n": 1}),
    (FRAMES, "avro_answer/src/fault_place.rt", STEP, {"[": 1, "]": 1, "{": 1, "}": 1}),
    (JSON, "avro_answer/src/json_object.rt", MEMBER, {"true": 1, "false": 1}),
    (FRAMES, "avro_answer/src/json_object.rt", AROUND, {"{": 1, "[": 1, "]": 1, "}": 1, "}\\n": 1}),
    (JSON, "avro_answer/src/many_data.rt", LINE, {'{"fault":"': 1, '"}\\n': 1}),
    (FRAMES, "avro_answer/src/named_place.rt", STEP, {"[]": 1, "{}": 1}),
    (FRAMES, "avro_answer/src/verdicts.rt", AROUND, {"}\\n": 1}),
    (
        JSON,
        "avro_canonical/src/opening.rt",
        SPELLED,
        {
            '{"name":': 1,
            ',"type":': 1,
            ',"fields":[': 1,
            '"null"': 1,
            '"boolean"': 1,
            '"int"': 1,
            '"long"': 1,
            '"bytes"': 1,
            '"string"': 1,
            '{"type":"array","items":': 1,
            '{"type":"map","values":': 1,
            ',"symbols":[': 1,
            ',"size":': 1,
        },
    ),
    (FRAMES, "avro_canonical/src/opening.rt", SPELLED, {"[": 1, "]}": 1, "}": 1}),
    (JSON, "avro_canonical/src/spelling.rt", SPELLED, {'"': 4, '{"name":': 1, ',"type":': 1}),
    (FRAMES, "avro_canonical/src/writing.rt", SPELLED, {"]": 1, "]}": 1, "}": 1}),
    (JSON, "avro_display/src/labels.rt", "the word of a type, which a branch has as its name", {"null": 1}),
    (FRAMES, "avro_display/src/labels.rt", AROUND, {"{": 1}),
    (FRAMES, "avro_display/src/members.rt", AROUND, {"{": 1}),
    (FRAMES, "avro_display/src/putting.rt", AROUND, {"}": 3, "[": 1, "]": 1, "{": 1, "{}": 1}),
    (FRAMES, "avro_show/src/composing.rt", AROUND, {"[": 1, "]": 1, "{": 1, "}": 2, "{}": 1}),
    (FRAMES, "avro_show/src/scratch.rt", AROUND, {"}": 1}),
    (
        JSON,
        "avro_why/src/words.rt",
        QUOTED,
        {
            '"': 5,
            '" is not a valid name': 1,
            'missing "': 1,
            '" must be ': 1,
            'missing "type" (a registry\'s answer? its schema is the string under "schema")': 1,
            '"size" must be 0 to 1048576': 1,
        },
    ),
]
