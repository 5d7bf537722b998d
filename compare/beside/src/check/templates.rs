//! What a script is: templates, parts, counts, dust, text.

use bitcoin::{FeeRate, Script};
use brinebutton as bb;
use brinebutton::ffi;
use compare::answers::Outcome;
use compare::crate_side::{self, outcome};
use compare::paper;

use super::crate_walk::Place;
use super::{Asks, Listed, Run};
use crate::entries::Entry;
use crate::our_side::{place_in, Said, Via};

/// The longest script that the inspector takes.
const INSPECTED: usize = 2_800;

impl Run {
    /// The templates; the kind's number.
    pub(super) fn templates(&mut self, bytes: &[u8], plain: &[Place], over: bool) -> u64 {
        let crates = Script::from_bytes(bytes);
        let ours = bb::Script::from_bytes(bytes);
        let refused = over.then_some(Said::no(1));
        let is_multisig = if over { false } else { self.multisig(bytes, plain) };
        let judged = [
            crates.is_p2sh(),
            crates.is_p2pkh(),
            crates.is_witness_program(),
            crates.is_p2wpkh(),
            crates.is_p2wsh(),
            crates.is_p2tr(),
            crate_side::is_p2a(crates),
            crates.is_p2pk(),
            is_multisig,
            crates.is_op_return(),
            !over && crates.is_push_only(),
        ];
        type Judges = fn(&bb::Script) -> Result<bool, bb::Refusal>;
        let entries: [(Entry, Asks, Judges); 11] = [
            (Entry::IsP2sh, ffi::bb_is_p2sh, bb::Script::is_p2sh),
            (Entry::IsP2pkh, ffi::bb_is_p2pkh, bb::Script::is_p2pkh),
            (Entry::IsWitnessProgram, ffi::bb_is_witness_program, bb::Script::is_witness_program),
            (Entry::IsP2wpkh, ffi::bb_is_p2wpkh, bb::Script::is_p2wpkh),
            (Entry::IsP2wsh, ffi::bb_is_p2wsh, bb::Script::is_p2wsh),
            (Entry::IsP2tr, ffi::bb_is_p2tr, bb::Script::is_p2tr),
            (Entry::IsP2a, ffi::bb_is_p2a, bb::Script::is_p2a),
            (Entry::IsP2pk, ffi::bb_is_p2pk, bb::Script::is_p2pk),
            (Entry::IsMultisig, ffi::bb_is_multisig, bb::Script::is_multisig),
            (Entry::IsOpReturn, ffi::bb_is_op_return, bb::Script::is_op_return),
            (Entry::IsPushOnly, ffi::bb_is_push_only, bb::Script::is_push_only),
        ];
        for ((entry, raw, safe), yes) in entries.into_iter().zip(judged) {
            let want = refused.unwrap_or(Said::yes(&[yes.into()]));
            self.asks(entry, 1, bytes, want, raw, || Said::judged(safe(ours)));
        }

        let [p2sh, p2pkh, witness, p2wpkh, p2wsh, p2tr, p2a, p2pk, multisig, op_return, _] = judged;
        let order = [p2pkh, p2sh, p2wpkh, p2wsh, p2tr, p2a, witness, p2pk, multisig, op_return, true];
        let kind = 1 + order.iter().position(|fits| *fits).unwrap() as u64;
        self.asks(Entry::Kind, 1, bytes, refused.unwrap_or(Said::yes(&[kind])), ffi::bb_kind, || {
            Said::of(ours.kind(), |kind| Said::yes(&[kind as u64 + 1]))
        });

        let version = crates.witness_version().map(|version| version.to_num().into());
        let version = refused.unwrap_or(Said::perhaps(version));
        self.asks(Entry::WitnessVersion, 2, bytes, version, ffi::bb_witness_version, || {
            Said::of(ours.witness_version(), |version| Said::perhaps(version.map(u64::from)))
        });
        self.parts(bytes, plain, over);

        let code: Option<Vec<u8>> = crates.p2wpkh_script_code().map(|code| code.into_boxed_script().to_bytes());
        let want = match (&refused, &code) {
            (Some(refused), _) => Err(*refused),
            (None, Some(code)) => Ok((&code[..], Said::yes(&[1, code.len() as u64]))),
            (None, None) => Ok((&[][..], Said::yes(&[0]))),
        };
        self.writes(
            Entry::P2wpkhScriptCode,
            2,
            want,
            |out, v| unsafe {
                ffi::bb_p2wpkh_script_code(
                    bytes.as_ptr(),
                    bytes.len(),
                    out.as_mut_ptr(),
                    out.len(),
                    v.as_mut_ptr(),
                    v.len(),
                )
            },
            |out| Said::of(ours.write_p2wpkh_script_code(out), |n| Said::perhaps(n.map(|n| n as u64))),
        );
        if let Some(code) = &code {
            self.ours.ask_bytes((Entry::P2wpkhScriptCode, Via::Safe, 1), 25, Said::yes(&[1]), code, |out, v| {
                let found = ours.p2wpkh_script_code();
                let there = matches!(found, Ok(Some(_)));
                out.copy_from_slice(&found.ok().flatten().unwrap_or([0; 25]));
                Said::yes(&[there.into()]).put(v)
            });
        }
        kind
    }

    /// Whether the crate says multisig, and with more than 255 pushes what document 01 says (c).
    fn multisig(&mut self, bytes: &[u8], plain: &[Place]) -> bool {
        let crates = outcome(|| Script::from_bytes(bytes).is_multisig());
        let pushes = plain.iter().skip(1).take_while(|step| matches!(step, Place::Push { .. })).count();
        match (crates, pushes > 255) {
            (Outcome::Answer(yes), false) => yes,
            (Outcome::Answer(false), true) => false,
            (_, true) => {
                self.listed(Listed::Keys);
                false
            }
            (Outcome::Panicked, false) => {
                self.ours.fail(Entry::IsMultisig, Via::Raw, || "the crate panicked".into());
                false
            }
        }
    }

    /// The P2PK key and the redeem script, by place and as parts.
    fn parts(&mut self, bytes: &[u8], plain: &[Place], over: bool) {
        let crates = Script::from_bytes(bytes);
        let ours = bb::Script::from_bytes(bytes);
        let key = crates.is_p2pk().then(|| (1, bytes.len() - 2));
        if let (Some((place, length)), Some(given)) = (key, crates.p2pk_public_key()) {
            if given.to_bytes() != bytes[place..place + length] {
                self.ours.fail(Entry::P2pkKey, Via::Raw, || "the crate's key has other bytes".into());
            }
        }
        // The crate's redeem script, with its place by the crate's walk: an empty one may be a slice of its own there.
        let redeem = if over { None } else { crates.redeem_script() }.map(|redeem| match plain.last() {
            Some(Place::Push { body_place, body_len, .. })
                if bytes[*body_place..*body_place + *body_len] == *redeem.as_bytes() =>
            {
                (*body_place, *body_len)
            }
            _ => (usize::MAX, redeem.len()),
        });
        type SafePart = for<'a> fn(&'a bb::Script) -> Result<Option<&'a [u8]>, bb::Refusal>;
        type SafeHanded = for<'a> fn(&'a bb::Script) -> &'a [u8];
        let redeem_script: SafePart = |script| script.redeem_script().map(|part| part.map(|part| part.as_bytes()));
        let both: [(_, (Entry, Asks, SafePart), (Entry, Asks, SafeHanded)); 2] = [
            (
                key,
                (Entry::P2pkKey, ffi::bb_p2pk_key, bb::Script::p2pk_public_key_bytes),
                (Entry::P2pkKeyPart, ffi::bb_p2pk_key_part, bb::Script::p2pk_key_part),
            ),
            (
                redeem,
                (Entry::RedeemScript, ffi::bb_redeem_script, redeem_script),
                (Entry::RedeemPart, ffi::bb_redeem_part, bb::Script::redeem_part),
            ),
        ];
        for (part, (entry, raw, safe), (handed, raw_handed, safe_handed)) in both {
            let (said, given) = match part {
                _ if over => (Said::no(1), Said::yes(&[0, 0])),
                Some((place, length)) => {
                    let (place, length) = (place as u64, length as u64);
                    (Said::yes(&[1, place, length]), Said::yes(&[place, length]))
                }
                None => (Said::yes(&[0]), Said::yes(&[0, 0])),
            };
            self.asks(entry, 3, bytes, said, raw, || Said::of(safe(ours), |part| Said::part(bytes, part)));
            self.asks(handed, 2, bytes, given, raw_handed, || {
                let part = safe_handed(ours);
                Said::yes(&[place_in(bytes, part), part.len() as u64])
            });
        }
    }

    /// Both counts. The accurate one is Core's, by a computation of its own over the crate's walk (a).
    pub(super) fn counts(&mut self, bytes: &[u8], plain: &[Place], over: bool) -> (u64, u64) {
        let crates = Script::from_bytes(bytes);
        let ours = bb::Script::from_bytes(bytes);
        let (accurate, legacy) = if over {
            (0, 0)
        } else {
            let codes = plain.iter().filter_map(|step| match step {
                Place::Opcode { code, .. } => Some(Some(*code)),
                Place::Push { .. } => Some(None),
                _ => None,
            });
            let accurate = paper::core_sigops(codes.clone());
            let crates_accurate = crates.count_sigops() as u64;
            if crates_accurate != accurate {
                if crates_accurate == paper::crate_sigops(codes) {
                    self.listed(Listed::Count);
                } else {
                    self.ours.fail(Entry::CountSigops, Via::Raw, || {
                        format!("the crate counts {crates_accurate}, which difference (a) does not explain")
                    });
                }
            }
            (accurate, crates.count_sigops_legacy() as u64)
        };
        let refused = over.then_some(Said::no(1));
        let want = refused.unwrap_or(Said::yes(&[accurate]));
        self.asks(Entry::CountSigops, 1, bytes, want, ffi::bb_count_sigops, || Said::count(ours.count_sigops()));
        let want = refused.unwrap_or(Said::yes(&[legacy]));
        self.asks(Entry::CountSigopsLegacy, 1, bytes, want, ffi::bb_count_sigops_legacy, || {
            Said::count(ours.count_sigops_legacy())
        });
        (accurate, legacy)
    }

    /// The dust figures: at the default rate, and at rates around what 64 bits hold for this script (d).
    pub(super) fn dust(&mut self, bytes: &[u8], over: bool) -> u64 {
        let crates = Script::from_bytes(bytes);
        let ours = bb::Script::from_bytes(bytes);
        let dust = crates.minimal_non_dust().to_sat();
        let want = if over { Said::no(1) } else { Said::yes(&[dust]) };
        self.asks(Entry::MinimalNonDust, 1, bytes, want, ffi::bb_minimal_non_dust, || {
            Said::amount(ours.minimal_non_dust())
        });
        let most = (u64::MAX / 4).checked_div(paper::dust_size(bytes)).unwrap_or(1 << 62);
        let rates = [
            most,
            750,
            most + 1,
            (1 << 62) - 1,
            1 << 62,
            (1 << 62) + 750,
            most - 1,
            0,
            1,
            2,
            251,
            751,
            1_000_000,
            1 << 53,
            u64::MAX,
        ];
        let tried = if self.brief {
            2
        } else if self.ours.thorough {
            rates.len()
        } else {
            7
        };
        for rate in rates.into_iter().take(tried) {
            let crates = outcome(|| crates.minimal_non_dust_custom(FeeRate::from_sat_per_kwu(rate)).to_sat());
            let want = if over {
                Said::no(1)
            } else if paper::fee_overflows(bytes, rate) {
                if crates != paper::custom_dust(bytes, rate) {
                    self.ours.fail(Entry::MinimalNonDustCustom, Via::Raw, || {
                        format!("rate {rate}: the crate gives {crates:?}, which difference (d) does not explain")
                    });
                }
                self.listed(Listed::Fee);
                Said::no(9)
            } else {
                match crates {
                    Outcome::Answer(sat) => Said::yes(&[sat]),
                    Outcome::Panicked => Said::no(u32::MAX),
                }
            };
            self.ours.ask(Entry::MinimalNonDustCustom, Via::Raw, 1, want, |v| unsafe {
                ffi::bb_minimal_non_dust_custom(bytes.as_ptr(), bytes.len(), rate, v.as_mut_ptr(), v.len())
            });
            self.ours.ask(Entry::MinimalNonDustCustom, Via::Safe, 1, want, |v| {
                Said::amount(ours.minimal_non_dust_custom(rate)).put(v)
            });
        }
        dust
    }

    /// The text, and the inspector's screen, put together from the crate's answers.
    pub(super) fn text(&mut self, bytes: &[u8], kind: u64, (accurate, legacy): (u64, u64), dust: u64, over: bool) {
        let ours = bb::Script::from_bytes(bytes);
        let asm = if over { String::new() } else { Script::from_bytes(bytes).to_asm_string() };
        let length = Said::yes(&[asm.len() as u64]);
        let want = if over { Err(Said::no(1)) } else { Ok((asm.as_bytes(), length)) };
        let said = want.map_or_else(|refused| refused, |(_, said)| said);
        self.asks(Entry::AsmLen, 1, bytes, said, ffi::bb_asm_len, || Said::count(ours.asm_len()));
        let (p, n) = (bytes.as_ptr(), bytes.len());
        self.writes(
            Entry::WriteAsm,
            1,
            want,
            |out, v| unsafe { ffi::bb_write_asm(p, n, out.as_mut_ptr(), out.len(), v.as_mut_ptr(), v.len()) },
            |out| Said::count(ours.write_asm(out)),
        );
        if !self.brief {
            self.ours.ask(Entry::WriteAsm, Via::Safe, 1, said, |v| {
                let mut text = String::with_capacity(7);
                text.push('>');
                match ours.fmt_asm(&mut text) {
                    Err(refusal) if text == ">" => Said::refusal(refusal),
                    Ok(()) if text.strip_prefix('>') == Some(&asm[..]) => Said::count(Ok(text.len() - 1)),
                    _ => Said::no(u32::MAX),
                }
                .put(v)
            });
        }

        const KINDS: [&str; 11] =
            ["p2pkh", "p2sh", "p2wpkh", "p2wsh", "p2tr", "p2a", "witness", "p2pk", "multisig", "opreturn", "other"];
        let screen = if n > INSPECTED {
            "refused 2800\n".to_string()
        } else {
            let kind = KINDS[kind as usize - 1];
            format!("length {n}\nkind {kind}\nsigops {accurate} {legacy}\ndust {dust}\nasm {asm}\n")
        };
        self.writes(
            Entry::Inspect,
            1,
            Ok((screen.as_bytes(), Said::yes(&[screen.len() as u64]))),
            |out, v| unsafe { ffi::bb_inspect(p, n, out.as_mut_ptr(), out.len(), v.as_mut_ptr(), v.len()) },
            |out| Said::count(ours.inspect(out)),
        );
        if !self.brief {
            let want = Said::yes(&[1]);
            self.ours.ask(Entry::Inspect, Via::Safe, 1, want, |v| {
                Said::yes(&[(ours.to_inspect_string() == screen).into()]).put(v)
            });
        }
    }
}
