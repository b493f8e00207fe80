#!/bin/sh
# mutants.sh [WORD]: puts faults into the second reading of document 01, and into how files are compared, one by one, in a copy. Does a
# short run find each?
# WORD: only the lines of the list that have it, as text_write. MUTANTS_DIR: the copy's folder.
# A line of the list: a file of src/, and a sed expression. Wrong calls under test stand in tests/ (cargo test).
# A fault that only changes the number of a refusal isn't in the list: the crate says yes or no, and the library's numbers show it.
# Nor is (n - 8) / 2 in numbers/room.rs, which no file refutes: at even n it is the same number, and at odd n no accepted file has more
# words. Rounding up is found by the line blocks alone, which must have just so many.
# The crate has no lending fee: faults in numbers/tariff.rs are found by objects whose fee is known (gen/tariff.rs).
# The crate takes a `+` in numbers: faults about request P8 are found by texts whose answer is known (gen/plus.rs). These show a wrong number
# of a number cell too, so that such faults are in the list.
# Faults about request P10 are found by the crate, whose files are swapped in one place (records.rs); a swap that both a write and a read
# have, by the rows of each, since trips come out alike.
set -eu
here=$(cd "$(dirname "$0")" && pwd)
copy=${MUTANTS_DIR:-$here/target/mutants}
word=${1:-}
"$here/build.sh"
rm -rf "$copy/src"
mkdir -p "$copy"
cp -r "$here/src" "$here/unescaper" "$here/Cargo.toml" "$here/Cargo.lock" "$here/build.rs" "$copy"
# Quick builds: one file changes each time.
export CARGO_INCREMENTAL=1 CARGO_PROFILE_RELEASE_OPT_LEVEL=1
build() { (cd "$copy" && cargo build --release --offline --quiet 2> "$copy/messages"); }
# How many differences a run of these words finds: few random cases, and more where they find nothing.
differences() { "$copy/target/release/differential" run "$@" | sed -n 's/^differences: //p'; }
seen() {
    n=$(differences --cases 3000 --short none --long 1 --many 1)
    [ "${n:-0}" -gt 0 ] || n=$(differences --cases 20000 --short quick --long 1 --many 1)
    [ "${n:-0}" -gt 0 ]
}
found=0 missed=0
miss() { missed=$((missed + 1)); echo "$1: $file $expression"; }
while IFS='@' read -r file expression; do
    case $file@$expression in *"$word"*) ;; *) continue ;; esac
    sed "$expression" "$here/src/$file" > "$copy/src/$file"
    if cmp -s "$copy/src/$file" "$here/src/$file"; then
        miss "NO CHANGE"
    elif ! build; then
        miss "DOESN'T BUILD"
    elif seen; then
        found=$((found + 1))
        echo "found ($n): $file $expression"
    else
        miss "MISSED"
    fi
    cp "$here/src/$file" "$copy/src/$file"
done <<'LIST'
numbers/binary.rs@s/w\[0\] == 0xFF/w[0] != 0/
numbers/binary.rs@s/head\[2\] != 0/head[2] == 1/
numbers/binary.rs@s/w\[0\] >= w\[1\]/w[0] > w[1]/
numbers/binary.rs@s/line_end(&w\[0\]) > u128::from(w\[1\].0)/line_end(\&w[0]) >= u128::from(w[1].0)/
numbers/binary.rs@/put(1, 4);/,/put(8/s/(\*addr).into()/addr.swap_bytes().into()/
numbers/binary.rs@/put(1, 4);/,/put(8/s/(\*addr).into()/u64::from(addr >> 8)/
numbers/binary.rs@/put(1, 0);/,/put(2, data/s/(\*addr).into()/addr.swap_bytes().into()/
numbers/binary.rs@s/l.addr.into()/l.addr.swap_bytes().into()/
numbers/binary.rs@s/p.relocs, addr(),/p.relocs, addr().swap_bytes(),/
numbers/binary.rs@/put(1, 4);/,/put(8/s/(\*addr).into()/addr.swap_bytes().into()/;s/p.relocs, addr(),/p.relocs, addr().swap_bytes(),/
numbers/binary.rs@s/p.relocs.clear();//
numbers/binary.rs@s/.extend(body),/.clone_from(\&body.to_vec()),/
numbers/binary.rs@s/matches!(kind, 1 | 3 | 4)/matches!(kind, 1 | 4)/
numbers/binary.rs@s/if n > rest.len() as u128/if n >= rest.len() as u128/
numbers/binary.rs@s/p.source.get_or_insert_with(Vec::new);//
numbers/text.rs@s/line.strip_suffix(b"\\r").unwrap_or(line)/line/
numbers/text.rs@s/split_lines(trim(file))/split_lines(file)/
numbers/text.rs@s/0xFF, signs)? != 0/0xFFFF, signs)? != 0/
numbers/text.rs@s/!l.starts_with(b"#") \&\& //
numbers/text.rs@s/return Err(25)/{}/
numbers/text.rs@s/ok_or((30, None))?/unwrap_or_default()/
numbers/text.rs@s/w\[0\] > w\[1\]/w[0] >= w[1]/
numbers/text.rs@s/(1..=6).contains/(1..=8).contains/
numbers/text.rs@s/source.extend(cells\[2\])/source.extend(trim(cells[2]))/
numbers/text.rs@s/hex(lines\[at\], signs)/hex(trim(lines[at]), signs)/
numbers/text.rs@s/p.relocs.clear();//
numbers/text.rs@s/None if !run.is_empty()/None if run.len() > 1/
numbers/text.rs@s/in addrs.iter().enumerate()/in addrs.iter().chain([\&None]).enumerate()/
numbers/text.rs@s/if s.len() != 4/if s.len() > 4/
numbers/text.rs@s/l.external = external;//
numbers/text.rs@s/cells.resize(columns.len(), b"")/cells.resize(columns.len(), b" ")/
numbers/text.rs@s/if addrs.is_empty()/if source.is_empty()/
numbers/text.rs@s/Signs::Taken => s.strip_prefix(b"+").unwrap_or(s)/Signs::Taken => s/
numbers/text.rs@s/Signs::Taken => .*/Signs::Taken => \&s[s.iter().take_while(|b| **b == b'+').count()..],/
numbers/text.rs@s/Signs::Taken => .*/Signs::Taken => s.strip_prefix(b"+").map_or(s, |rest| if rest.is_empty() { rest } else { b"1" }),/
numbers/text.rs@s/Signs::Refused => s,/Signs::Refused => s.strip_prefix(b"+").unwrap_or(s),/
numbers/text.rs@s/Signs::Refused => s,/Signs::Refused => if radix == 10 { s.strip_prefix(b"+").unwrap_or(s) } else { s },/
numbers/text.rs@s/digits(s, 16, 0xFFFF, signs)/digits(s, 16, 0xFFFF, Signs::Taken)/
numbers/text.rs@s/0x10FFFF, Signs::Refused/0x10FFFF, Signs::Taken/
numbers/text.rs@s/hex(lines\[at\], signs)/hex(lines[at], Signs::Taken)/
numbers/text.rs@s/digits(l, 10, 0xFFFF, signs)/digits(l, 10, 0xFFFF, Signs::Taken)/
numbers/text.rs@s/maybe_hex(l, signs)/maybe_hex(l, Signs::Taken)/
numbers/text.rs@s/let addr = hex(trim(cells\[0\]), signs)/let addr = hex(trim(cells[0]), Signs::Taken)/
numbers/text.rs@s/digits(trim(cells\[1\]), 10, 0xFF, signs)/digits(trim(cells[1]), 10, 0xFF, Signs::Taken)/
numbers/text.rs@s/p.relocs, hex(trim(cells\[0\]), signs)/p.relocs, hex(trim(cells[0]), Signs::Taken)/
numbers/text.rs@s/digits(trim(cells\[1\]), 10, u128::from(u64::MAX), signs)/digits(trim(cells[1]), 10, u128::from(u64::MAX), Signs::Taken)/
numbers/text.rs@s/digits(trim(cells\[0\]), 10, u128::from(u64::MAX), signs)/digits(trim(cells[0]), 10, u128::from(u64::MAX), Signs::Taken)/
numbers/text.rs@s/maybe_hex(trim(cells\[1\]), signs)/maybe_hex(trim(cells[1]), Signs::Taken)/
numbers/text.rs@s/if s.is_empty() {/if s.is_empty() || (s.len() > 1 \&\& s[0] == b'0') {/
numbers/text.rs@s/if s.is_empty() {/if s.is_empty() || (radix == 10 \&\& s.len() > 1 \&\& s[0] == b'0') {/
numbers/text.rs@s/if s.is_empty() {/if s.is_empty() || s.len() > 20 {/
numbers/text.rs@s/if s.is_empty() {/if s.is_empty() || (s[0] == b'0' \&\& matches!(signs, Signs::Refused)) {/
numbers/text.rs@s/read.push((addr, external/if trim(cells[2]).starts_with(b"+") { return None; } &/
numbers/text.rs@s/Parts::put(&mut p.relocs/if trim(cells[1]).starts_with(b"+") { return None; } &/
numbers/text.rs@s/let index = digits/if trim(cells[0]).starts_with(b"+") { return None; } &/
numbers/text.rs@s/source.extend(cells/if cells[2].starts_with(b"+") { return None; } &/
numbers/text.rs@s/!l.starts_with(b"#")/!(l.starts_with(b"#") \&\& !l.contains(\&b'+'))/
numbers/text.rs@s/digits(l, 10, 0xFFFF, signs)).ok_or(24)/digits(l, 10, 0xFFFF, signs)).ok_or(25)/
numbers/text.rs@s/hex(lines\[at\], signs).ok_or(24)/hex(lines[at], signs).ok_or(26)/
numbers/text.rs@s/>>>().ok_or(24)/>>>().ok_or(25)/
numbers/text.rs@s/symbol_group(body, &mut st.parts, signs).ok_or((26/symbol_group(body, \&mut st.parts, signs).ok_or((24/
numbers/text.rs@s/linker_group(body, &mut st.parts, signs).ok_or((26/linker_group(body, \&mut st.parts, signs).ok_or((28/
numbers/text.rs@s/&mut st.parts, signs).ok_or((26, None))?;/\&mut st.parts, signs).ok_or((28, None))?;/
numbers/text.rs@s/lines.len() - 1\], signs).ok_or((28/lines.len() - 1], signs).ok_or((26/
numbers/text.rs@s/let decides = .*/let decides = false;/
numbers/text.rs@s/ \&\& read_with_signs(file) != read;/;/
numbers/text.rs@s/ \&\& file.contains(&b'+') \&\& read_with_signs(file) != read;/;/
numbers/text.rs@s/read_with_signs(file) != read;/read_with_signs(file).number() == 0;/
numbers/text.rs@s/Refused(read.number(), Some(Excluded::PlusSign))/Refused(read_with_signs(file).number(), Some(Excluded::PlusSign))/
numbers/text_write.rs@s/name.iter().filter(|b| \*\*b \& 0xC0 != 0x80).count()/name.len()/
numbers/text_write.rs@s/labels.sort_by_key(|l| l.addr);//
numbers/text_write.rs@s/first.wrapping_add(i as u64)/first.saturating_add(i as u64)/
numbers/text_write.rs@s/0x27 | 0x22 | 0x5C/0x22 | 0x5C/
numbers/text_write.rs@s/u{{{c:x}}}/u{{{c:X}}}/
numbers/text_write.rs@s/(a.start, &a.name).cmp(&(b.start, &b.name))/a.start.cmp(\&b.start)/
numbers/text_write.rs@s/l.name.len()).max().unwrap().max(5)/l.name.len()).max().unwrap()/
numbers/text_write.rs@s/len().max(4)/len()/
numbers/query.rs@s/first.wrapping_add(o as u64)/first.saturating_add(o as u64)/
numbers/query.rs@s/i > src.len() as u64/i >= src.len() as u64/
numbers/query.rs@s/a + white_before(&src\[a..e\])/a/
numbers/query.rs@s/count() as u64 + 1, i)/count() as u64, i)/
numbers/query.rs@s/out.push((start, i + 1))/out.push((start, i))/
numbers/query.rs@s/n.checked_sub(\*first)?/n.checked_sub(*first)?.saturating_sub(1)/
numbers/utf8.rs@s/| 0x85 | 0xA0/| 0xA0/
numbers/utf8.rs@s/| 0x205F | 0x3000/| 0x3000/
numbers/utf8.rs@s/| 0x1680 /| 0x1680 | 0x180E /
numbers/utf8.rs@s/0x2000..=0x200A/0x2000..=0x200B/
numbers/utf8.rs@s/0x2000..=0x200A/0x2001..=0x200A/
numbers/utf8.rs@s/0xED => (3, 0x80, 0x9F)/0xED => (3, 0x80, 0xBF)/
numbers/utf8.rs@s/0xF4 => (4, 0x80, 0x8F)/0xF4 => (4, 0x80, 0xBF)/
numbers/room.rs@s/saturating_sub(7)/saturating_sub(9)/
numbers/room.rs@s,/ 2,/ 3,
numbers/room.rs@s,) / 2,) * 2 / 5,
numbers/room.rs@s/saturating_sub(7)/saturating_sub(7).min(0x2_0000)/
numbers/room.rs@s/bytes.saturating/(bytes as u16 as usize).saturating/
numbers/room.rs@s,) / 2,).div_ceil(2),
numbers/tariff.rs@s/(150, /(149, /
numbers/tariff.rs@s/4 \* object/5 * object/
numbers/tariff.rs@s/chunks(256)/chunks(255)/
numbers/tariff.rs@s/chunks(256)/chunks(257)/
numbers/tariff.rs@s/chunks(256)/chunks_exact(256)/
numbers/tariff.rs@s/object.chunks(256).count()/(object.len() \/ 256 + 1)/
numbers/tariff.rs@s/count() as u64/count() as u16 as u64/
numbers/tariff.rs@s/p.labels.len() as u64/p.labels.len() as u16 as u64/
numbers/tariff.rs@s/p.labels.len()/(p.labels.len() + p.relocs.len())/
numbers/tariff.rs@s/p.labels.len()/p.labels.iter().map(|l| l.name.len()).sum::<usize>()/
numbers/tariff.rs@s/p.labels.len()/p.labels.iter().filter(|l| !l.external).count()/
numbers/tariff.rs@s/p.labels.len()/p.labels.iter().filter(|l| !l.name.is_empty()).count()/
numbers/tariff.rs@s/if member/if !member/
numbers/tariff.rs@s/if member { reduced(sum) } else { sum }/sum/
numbers/tariff.rs@s/base + words + labels/base + words/
numbers/tariff.rs@s/left >= 50/left > 50/
numbers/tariff.rs@s/left >= 50/left > 50 || (left == 50 \&\& cents % 2 == 1)/
numbers/tariff.rs@s/left >= 50/left > 0/
numbers/tariff.rs@s/left >= 50/false/
numbers/tariff.rs@s/70 \* sum/70 * sum.min(1_000_000)/
numbers/tariff.rs@s/70 \* sum/30 * sum/
numbers/tariff.rs@s/16_777_216/16_777_215/
numbers/tariff.rs@s/16_777_216/16_777_217/
numbers/tariff.rs@s/> MOST_WORDS/>= MOST_WORDS/
numbers/tariff.rs@s/parts.ok_or(1)?/parts.ok_or(if object.len() > MOST_WORDS { 38 } else { 1 })?/
numbers/tariff.rs@s/parts.ok_or(1)?/parts.ok_or(38)?/
numbers/tariff.rs@s/Err(38)/Err(1)/
object.rs@s/line_end(l) <= last_line/line_end(l) <= last_line + 1/
object.rs@s/line_end(a) < u128::from(b.0)/line_end(a) <= u128::from(b.0)/
object.rs@s/!s.chars().any(white_space)/true/
object.rs@s/starts_with(\['.', '#', '='\])/starts_with(['.', '#'])/
object.rs@s/rising(addrs, |a, b| a <= b)/rising(addrs, |a, b| a < b)/
object.rs@s/a.0 < b.0 \&\& line_end(a) <= u128/a.0 < b.0 \&\& line_end(a) < u128/
object.rs@s/addr.swap_bytes()/*addr/
object.rs@s/out.relocs.sort_by_key(|(a, _)| \*a);//
records.rs@s/record\[0\] == 4/false/
records.rs@s/record\[0\] == 4/record[0] == 1/
records.rs@s/record\[0\] == 4/matches!(record[0], 1 | 4)/
records.rs@s/record\[0\] == 4/matches!(record[0], 0 | 4)/
records.rs@s/out.swap(at + 1, at + 2);/&&/
records.rs@s/out.swap(at + 1, at + 2);/& break;/
records.rs@s/at + 1, at + 2/at + 2, at + 3/
records.rs@s/vec!\[r\[2\], r\[1\]\]/vec![r[1], r[2]]/
records.rs@s/vec!\[r\[2\], r\[1\]\]/vec![r[2]]/
records.rs@s/vec!\[r\[2\], r\[1\]\]/vec![]/
records.rs@s/r\[20..\].to_vec()/vec![]/
reference.rs@s/records::swap_relocations(g)/Some(g.clone())/
reference.rs@s/records::swap_relocations(g)/&.and_then(|g| records::swap_relocations(\&g))/
reference.rs@s/records::swap_relocations(&f).map_or/Some(\&f).map_or/
reference.rs@s/Did::Gave(p.clone()) {/Did::Gave(swapped(p)) {/
reference.rs@s/encode(&swapped(p))/encode(p)/
reference.rs@s/let mut want = read_binary(&file)/let file = records::swap_relocations(\&file)?; &/
under.rs@s/records::canonical(f)/records::swap_relocations(f).and_then(|f| records::canonical(\&f))/
under.rs@s/if length > room/if length >= room/
LIST
echo "$found found, $missed missed"
[ "$missed" = 0 ]
