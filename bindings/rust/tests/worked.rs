//! The worked example and that of Appendix A, and what the crate says of its own names and numbers.

mod held;

use compare::text::base16;
use compare::worked::{appendix_a, worked, IDENTITIES, RECORDS, WRAPPED_KEYS};
use obscurlane::{
    confirm_request, confirm_response, field, Identity, Kind, Reason, Record, Sha384, View,
    WrappedKey, KEY_BYTES,
};

#[test]
fn every_value_is_accepted() {
    for name in IDENTITIES {
        let identity = worked(name);
        let kind = Identity::read(&identity).expect(name).kind;
        assert!(identity.starts_with(kind.name().as_bytes()), "{name} is a {kind}");
        assert!(identity.len() <= obscurlane::LONGEST_IDENTITY);
    }
    for name in RECORDS {
        let record = worked(name);
        let kind = Record::read(&record).expect(name).kind();
        assert!(record.starts_with(kind.name().as_bytes()), "{name} is a {kind}");
        assert!(record.len() <= obscurlane::LONGEST_RECORD);
    }
}

#[test]
fn the_request_by_its_names() {
    let bytes = worked("VKLOADREQ");
    let View::Request(request) = Record::read(&bytes).expect("accepted").view() else {
        panic!("no request");
    };
    assert_eq!(request.id_sm.bytes, worked("ID_SM"));
    assert_eq!(request.id_sm.kind, Kind::Smid);
    assert_eq!(request.id_kmc.bytes, worked("ID_KMC"));
    assert_eq!(request.id_kmc.kind, Kind::Kmcid);
    assert_eq!(request.tvp, worked("TVP"));
    assert_eq!(request.hwid, worked("HWID"));
    assert_eq!(request.fwid, worked("FWID"));
    assert_eq!(request.qe, worked("QE"));
    assert_eq!(request.mac_tag, worked("MACTAG_SM"));
}

#[test]
fn the_response_by_its_names() {
    let bytes = worked("VKLOADRESP");
    let View::Response(response) = Record::read(&bytes).expect("accepted").view() else {
        panic!("no response");
    };
    assert_eq!(response.id_kmc.bytes, worked("ID_KMC"));
    assert_eq!(response.id_kmc.kind, Kind::Kmcid);
    assert_eq!(response.id_sm.bytes, worked("ID_SM"));
    assert_eq!(response.id_sm.kind, Kind::Smid);
    assert_eq!(response.tvp, worked("TVP"));
    assert_eq!(response.mac_tag, worked("MACTAG_KMC"));
}

#[test]
fn public_keys_by_their_names() {
    let id_man = worked("ID_MAN");
    for (name, kind, subject, q, signature) in [
        ("PUBKEY_KMC", Kind::Ecdh, ("ID_KMC", Kind::Kmcid), "Q_KMC", None),
        ("PUBKEY_MAN", Kind::Ecdsa, ("ID_MAN", Kind::Smman), "Q_MAN", Some("SIG_MAN")),
        ("PUBKEY_SM", Kind::Ecdh, ("ID_SM", Kind::Smid), "Q_SM", Some("SIG_SM")),
    ] {
        let bytes = worked(name);
        let record = Record::read(&bytes).expect(name);
        let View::PublicKey(key) = record.view() else { panic!("{name} is no key") };
        assert_eq!(key.kind, kind, "{name}");
        assert_eq!((key.subject.bytes, key.subject.kind), (&worked(subject.0)[..], subject.1));
        assert_eq!(key.q, worked(q), "{name}");
        assert_eq!(Some(key.expiry), record.field(field::public_key::EXPIRY), "{name}");
        let issuer = key.issuer.map(|issuer| (issuer.bytes, issuer.kind));
        assert_eq!(issuer, signature.map(|_| (&id_man[..], Kind::Smman)), "{name}");
        assert_eq!(key.signature.map(<[u8]>::to_vec), signature.map(worked), "{name}");
    }
}

/// Those of the three identities, each in one key at least, with their hashes.
#[test]
fn fingerprints() {
    for (key, who) in [("PUBKEY_KMC", "KMC"), ("PUBKEY_MAN", "MAN"), ("PUBKEY_SM", "SM")] {
        let of = |what: &str| worked(&format!("{what}_{who}"));
        let mut out = [0; obscurlane::LONGEST_FINGERPRINT];
        assert_eq!(obscurlane::sha384_of(&of("HASHIN")), of("SHA384")[..], "{key}");
        assert_eq!(obscurlane::check_fingerprint(&worked(key)), Ok(()), "{key}");
        assert_eq!(obscurlane::write_fingerprint(&worked(key), &mut out), Ok(out.len()), "{key}");
        assert_eq!(out, of("FINGERPRINT")[..], "{key}");
    }
}

/// The pieces that are hashed, by a state, from where they stand in a key.
#[test]
fn the_hash_of_a_fingerprint() {
    let key = worked("PUBKEY_SM");
    let View::PublicKey(key) = Record::read(&key).expect("accepted").view() else {
        panic!("no key");
    };
    let Identity { kind, manufacturer, mid, gnt, .. } =
        Identity::read(key.subject.bytes).expect("accepted with it");
    let pieces = [kind.name().as_bytes(), manufacturer, mid, gnt, key.q];
    let begun = Sha384::begin();
    let hash = pieces.iter().fold(begun, |hash, piece| hash.add(piece).add(b":")).end();
    assert_eq!(hash, worked("SHA384_SM")[..]);
}

/// Every other kind, with a check or without one.
#[test]
fn fingerprints_of_other_kinds() {
    let mut out = [0; obscurlane::LONGEST_FINGERPRINT];
    let is_key = |name: &&&str| name.starts_with("PUBKEY_");
    for name in IDENTITIES.iter().chain(&RECORDS).filter(|name| !is_key(name)) {
        let record = worked(name);
        for bytes in [&record[..], &record[..record.len() - 1]] {
            let refusal = obscurlane::check_fingerprint(bytes).expect_err(name);
            assert_eq!((refusal.reason, refusal.field), (Reason::UnknownKind, None), "{name}");
            assert_eq!(obscurlane::write_fingerprint(bytes, &mut out), Err(refusal), "{name}");
        }
    }
    assert_eq!(out, [0; obscurlane::LONGEST_FINGERPRINT]);
}

/// Those of the three identities.
#[test]
fn expiries() {
    for (key, expiry, seconds) in [
        ("PUBKEY_KMC", "20210110T120000Z", 884_433_600),
        ("PUBKEY_MAN", "20210115T140000Z", 884_872_800),
        ("PUBKEY_SM", "99991231T115959Z", 252_676_411_199),
    ] {
        assert_eq!(obscurlane::expiry_of(&worked(key)), Ok(seconds), "{key}");
        assert_eq!(obscurlane::moment_of(expiry.as_bytes()), Some(seconds), "{key}");
    }
    let is_key = |name: &&&str| name.starts_with("PUBKEY_");
    for name in IDENTITIES.iter().chain(&RECORDS).filter(|name| !is_key(name)) {
        let record = worked(name);
        for bytes in [&record[..], &record[..record.len() - 1]] {
            let refusal = obscurlane::expiry_of(bytes).expect_err(name);
            assert_eq!((refusal.reason, refusal.field), (Reason::UnknownKind, None), "{name}");
        }
    }
}

/// The keys that Z gives, and both tags, by the calls and by what they are made of.
#[test]
fn tags_and_keys() {
    let [z, request, response] = ["Z", "VKLOADREQ", "VKLOADRESP"].map(worked);
    let (mut mac_key, mut kek) = ([0; KEY_BYTES], [0; KEY_BYTES]);
    assert_eq!(confirm_request(&z, &request, &mut mac_key, &mut kek), Ok(()));
    assert_eq!((&mac_key[..], &kek[..]), (&worked("MACKEY")[..], &worked("KEK")[..]));
    assert_eq!(confirm_response(&z, &request, &response), Ok(()));
    assert_eq!(obscurlane::sha384_of(&worked("KDF_INPUT")), [mac_key, kek].concat()[..]);
    for (text, tag) in [("MACDATA_SM", "MACTAG_SM"), ("MACDATA_KMC", "MACTAG_KMC")] {
        let ours = obscurlane::hmac_of(&mac_key, &worked(text));
        assert_eq!(base16(&ours).as_bytes(), worked(tag), "{tag}");
    }
}

/// Every other kind in the place of each, with a check or without one.
#[test]
fn tags_of_other_kinds() {
    let [z, request, response] = ["Z", "VKLOADREQ", "VKLOADRESP"].map(worked);
    let mut keys = [[0; KEY_BYTES]; 2];
    let [mac_key, kek] = &mut keys;
    let unknown = Some(Reason::UnknownKind);
    for name in IDENTITIES.iter().chain(&RECORDS) {
        let record = worked(name);
        for bytes in [&record[..], &record[..record.len() - 1]] {
            if !name.ends_with("VKLOADREQ") {
                let asked = confirm_request(&z, bytes, mac_key, kek).err();
                assert_eq!(asked.map(|refusal| refusal.reason()), unknown, "{name}");
                let asked = confirm_response(&z, bytes, &response).err();
                assert_eq!(asked.map(|refusal| refusal.reason()), unknown, "{name}");
            }
            if !name.ends_with("VKLOADRESP") {
                let answered = confirm_response(&z, &request, bytes).err();
                assert_eq!(answered.map(|refusal| refusal.reason()), unknown, "{name}");
            }
        }
    }
    assert_eq!(keys, [[0; KEY_BYTES]; 2]);
}

/// Every card by its number and by its name, and the list as the cipher takes it.
#[test]
fn wrapped_keys_by_their_names() {
    for name in WRAPPED_KEYS {
        let bytes = worked(name);
        let text = String::from_utf8(bytes.clone()).expect("a text");
        let parts: Vec<&str> = text.split('|').collect();
        let View::WrappedKey(key) = Record::read(&bytes).expect(name).view() else {
            panic!("{name} is no wrapped key");
        };
        let WrappedKey { nonce, attributes, protected_key } = key;
        assert_eq!([nonce, attributes, protected_key], [1, 2, 3].map(|at| parts[at].as_bytes()));
        assert_eq!(attributes.as_ptr(), bytes[31..].as_ptr());

        let cards: Vec<&str> = parts[2].split_terminator(';').collect();
        assert_eq!(key.cards().count(), cards.len(), "{name}");
        for ((wanted, card), found) in (1..).zip(&cards).zip(key.cards()) {
            let (card_name, value) = card.split_at(3);
            assert_eq!((&found.name[..], found.value), (card_name.as_bytes(), value.as_bytes()));
            assert_eq!(obscurlane::attribute(&bytes, wanted), Ok(card.as_bytes()));
            let named = obscurlane::attribute_named(&bytes, card_name.as_bytes());
            assert_eq!(named, Ok(card.as_bytes()));
        }
        for wanted in [0, cards.len() + 1] {
            let refusal = obscurlane::attribute(&bytes, wanted).expect_err("no card");
            assert_eq!((refusal.reason, refusal.field), (Reason::MissingItem, None));
        }
    }
    let bytes = worked("KEY1_1");
    assert_eq!(obscurlane::attribute_named(&bytes, b"KEN"), Ok(&b"KEN255"[..]));
    assert_eq!(obscurlane::attribute(&bytes, 7), Ok(&b"SGC0000123456"[..]));
}

/// Its last line is a sum and has no line feed.
#[test]
fn the_file_of_appendix_a() {
    let file = appendix_a();
    let answers: Vec<_> = obscurlane::lines(&file).map(|line| line.answer).collect();
    let (last, records) = answers.split_last().expect("lines");
    assert_eq!(last.map_err(|refusal| refusal.reason), Err(Reason::Unfinished));
    assert_eq!(records[0], Ok(Kind::Response));
    assert_eq!(records[1..], [Ok(Kind::Key); 5]);
}

/// The signed key of the module as a manufacturer sends it: read by its names, found in a file, and written again.
#[test]
fn the_line_of_the_signed_module_key() {
    let (record, line) = (worked("PUBKEY_SM"), worked("PUBKEY_SM_FILELINE"));
    let read = Record::read_trailed(&line).expect("accepted");
    assert_eq!((read.kind(), read.bytes()), (Kind::Ecdh, &record[..]));
    let View::PublicKey(key) = read.view() else { panic!("no key") };
    assert_eq!(key.subject.bytes, worked("ID_SM"));
    assert_eq!(key.q, worked("Q_SM"));
    assert_eq!(key.issuer.map(|issuer| issuer.bytes.to_vec()), Some(worked("ID_MAN")));
    assert_eq!(key.signature, Some(&worked("SIG_SM")[..]));
    assert_eq!(key.subject.bytes.as_ptr(), line[10..].as_ptr());

    let hash = obscurlane::sha1_of(&[&record[..], b"\n"].concat());
    assert_eq!(base16(&hash).as_bytes(), worked("PUBKEY_SM_SHA1"));
    let mut out = [0; obscurlane::LONGEST_TRAILED];
    assert_eq!(obscurlane::write_trailed(&record, &mut out), Ok(576));
    assert_eq!(out[..576], line);

    let file = [&line[..], b"\n", &line].concat();
    let lines: Vec<_> = obscurlane::trailed_lines(&file).collect();
    assert_eq!(lines.len(), 2);
    assert_eq!((lines[0].start, lines[0].bytes, lines[0].next), (0, &line[..], 577));
    assert_eq!(lines[0].answer, Ok(Kind::Ecdh));
    assert_eq!(lines[1].answer.map_err(|refusal| refusal.reason), Err(Reason::Unfinished));
    let totals = obscurlane::Totals { lines: 2, accepted: 1 };
    assert_eq!(obscurlane::count_trailed(&file), totals);
}

/// Every record and its line; an identity has none.
#[test]
fn lines_of_every_value() {
    for name in RECORDS {
        let record = worked(name);
        let mut out = [0; obscurlane::LONGEST_TRAILED];
        let len = obscurlane::write_trailed(&record, &mut out).expect(name);
        assert_eq!(len, record.len() + obscurlane::TRAILER, "{name}");
        assert_eq!(Record::read_trailed(&out[..len]), Record::read(&record), "{name}");
        let refusal = Record::read_trailed(&record).expect_err(name);
        assert_eq!((refusal.reason, refusal.field), (Reason::MissingTrailer, None), "{name}");
        out[len - 1] = if out[len - 1] == b'0' { b'1' } else { b'0' };
        let refusal = Record::read_trailed(&out[..len]).expect_err(name);
        assert_eq!((refusal.reason, refusal.field), (Reason::WrongHash, None), "{name}");
    }
    for name in IDENTITIES {
        let mut out = [0; obscurlane::LONGEST_TRAILED];
        let refusal = obscurlane::write_trailed(&worked(name), &mut out).expect_err(name);
        assert_eq!((refusal.reason, refusal.field), (Reason::UnknownKind, None), "{name}");
        assert_eq!(out, [0; obscurlane::LONGEST_TRAILED], "{name}");
    }
}

/// The request and two keys as they go by mail: written, and found again in a letter.
#[test]
fn the_blocks_that_go_by_mail() {
    for (name, kind) in
        [("VKLOADREQ", Kind::Request), ("PUBKEY_KMC", Kind::Ecdh), ("PUBKEY_MAN", Kind::Ecdsa)]
    {
        let (record, block) = (worked(name), worked(&format!("MAIL_{name}")));
        let mut out = [0; obscurlane::LONGEST_MAIL];
        let len = obscurlane::write_mail(&record, &mut out).expect(name);
        assert_eq!(out[..len], block, "{name}");

        let letter = [b"Dear vendor,\n\n", &block[..], b"\nThe centre\n"].concat();
        let mut out = [0; obscurlane::LONGEST_RECORD];
        for text in [&letter, &block, &block[..block.len() - 1]] {
            let read = Record::read_mail(text, &mut out).expect(name);
            assert_eq!((read.kind(), read.bytes()), (kind, &record[..]), "{name}");
        }
        let refusal = Record::read_mail(&letter[15..], &mut out).expect_err(name);
        assert_eq!((refusal.reason, refusal.field), (Reason::MissingBegins, None), "{name}");
        let front = &block[..block.len() - 2];
        let refusal = Record::read_mail(front, &mut out).expect_err(name);
        assert_eq!((refusal.reason, refusal.field), (Reason::MissingEnds, None), "{name}");
        assert_eq!(out[..record.len()], record, "{name}");
    }
    let letter = worked("MAIL_VKLOADREQ");
    let mut out = [0; obscurlane::LONGEST_RECORD];
    let read = Record::read_mail(&letter, &mut out).expect("accepted");
    let View::Request(request) = read.view() else { panic!("no request") };
    assert_eq!(request.id_sm.bytes, worked("ID_SM"));
    assert_eq!(request.qe, worked("QE"));
    assert_eq!(request.mac_tag, worked("MACTAG_SM"));
}

/// Every record and its block; an identity has none.
#[test]
fn blocks_of_every_value() {
    for name in RECORDS {
        let record = worked(name);
        let mut block = [0; obscurlane::LONGEST_MAIL];
        let len = obscurlane::write_mail(&record, &mut block).expect(name);
        let mut out = [0; obscurlane::LONGEST_RECORD];
        assert_eq!(Record::read_mail(&block[..len], &mut out), Record::read(&record), "{name}");
        let refusal = obscurlane::write_mail(&record, &mut block[..len - 1]).expect_err(name);
        assert_eq!((refusal.reason, refusal.field), (Reason::ShortOutput, None), "{name}");
        let room = &mut out[..record.len() - 1];
        let refusal = obscurlane::read_mail(&block[..len], room).expect_err(name);
        assert_eq!((refusal.reason, refusal.field), (Reason::ShortOutput, None), "{name}");
    }
    for name in IDENTITIES {
        let mut out = [0; obscurlane::LONGEST_MAIL];
        let refusal = obscurlane::write_mail(&worked(name), &mut out).expect_err(name);
        assert_eq!((refusal.reason, refusal.field), (Reason::UnknownKind, None), "{name}");
        assert_eq!(out, [0; obscurlane::LONGEST_MAIL], "{name}");
    }
}

/// What reads other kinds alone.
#[test]
fn calls_that_take_no_wrapped_key() {
    let (key, other) = (worked("KEY1_1"), worked("PUBKEY_KMC"));
    let mut out = [0; obscurlane::LONGEST_MODULE_TEXT];
    let unknown = Some(Reason::UnknownKind);
    assert_eq!(Identity::read(&key).err().map(|refusal| refusal.reason), unknown);
    assert_eq!(obscurlane::identity_field(&key, 1).err().map(|refusal| refusal.reason), unknown);
    for text in [obscurlane::shared_info, obscurlane::module_text, obscurlane::centre_text] {
        assert_eq!(text(&key, &mut out).err().map(|refusal| refusal.reason), unknown);
    }
    for (first, second) in [(&key, &key), (&key, &other), (&other, &key)] {
        let refusal = obscurlane::newer(first, second).err();
        assert_eq!(refusal.map(|refusal| refusal.reason()), unknown);
    }
    for name in IDENTITIES.iter().chain(&RECORDS).filter(|name| !WRAPPED_KEYS.contains(name)) {
        let record = worked(name);
        let by_number = obscurlane::attribute(&record, 1).err();
        let by_name = obscurlane::attribute_named(&record, b"ACT").err();
        assert_eq!(by_number.map(|refusal| refusal.reason), unknown, "{name}");
        assert_eq!(by_name.map(|refusal| refusal.reason), unknown, "{name}");
    }
}

/// A list that no reading has accepted is cut as far as it has cards.
#[test]
fn cards_of_any_list() {
    let cards = |attributes: &'static [u8]| {
        let key = WrappedKey { nonce: b"", attributes, protected_key: b"" };
        key.cards().map(|card| (card.name, card.value)).collect::<Vec<_>>()
    };
    assert_eq!(cards(b""), []);
    assert_eq!(cards(b"ACT"), []);
    assert_eq!(cards(b"AC;DKG02;"), []);
    assert_eq!(cards(b"ACT;DKG02;KEN"), [(b"ACT", &b""[..]), (b"DKG", b"02")]);
}

#[test]
fn an_identity_by_its_names() {
    let bytes = worked("ID_SM");
    let identity = Identity::read(&bytes).expect("accepted");
    assert_eq!(Record::read_identity(&bytes).map(|read| read.view()), Ok(View::Identity(identity)));
    assert_eq!(identity.kind, Kind::Smid);
    assert_eq!(identity.manufacturer, b"Prism");
    assert_eq!(identity.mid, b"06000001");
    assert_eq!(identity.gnt, b"20180120T090000Z");
    assert_eq!(identity.fingerprint, worked("FINGERPRINT_SM"));
}

#[test]
fn the_request_has_its_fields_and_its_texts() {
    let request = worked("VKLOADREQ");
    let names = ["ID_SM", "ID_KMC", "TVP", "HWID", "FWID", "QE", "MACTAG_SM"];
    for (wanted, name) in (1..).zip(names) {
        assert_eq!(obscurlane::record_field(&request, wanted), Ok(&worked(name)[..]), "{name}");
    }
    type Text = fn(&[u8], &mut [u8]) -> Result<usize, obscurlane::Refusal>;
    let texts: [(Text, &str); 3] = [
        (obscurlane::shared_info, "SHAREDINFO"),
        (obscurlane::module_text, "MACDATA_SM"),
        (obscurlane::centre_text, "MACDATA_KMC"),
    ];
    for (text, name) in texts {
        let mut out = [0; obscurlane::LONGEST_MODULE_TEXT];
        let len = text(&request, &mut out).expect(name);
        assert_eq!(out[..len], worked(name), "{name}");
    }
}

#[test]
fn every_number_has_a_reason() {
    assert_eq!(Reason::from_number(0), None);
    assert_eq!(Reason::from_number(Reason::ALL.len() as u8 + 1), None);
    for (number, &reason) in (1..).zip(Reason::ALL) {
        assert_eq!(reason.number(), number);
        assert_eq!(Reason::from_number(number), Some(reason));
        assert_eq!(reason.to_string(), reason.sentence());
    }
}

#[test]
fn kinds_and_fields_have_their_names() {
    assert_eq!(Kind::ALL.len(), compare::kind::Kind::ALL.len());
    for (ours, theirs) in Kind::ALL.iter().zip(compare::kind::Kind::ALL) {
        assert_eq!(ours.name(), theirs.name());
        assert_eq!(ours.to_string(), theirs.name());
        assert!(ours.fields().iter().copied().eq(theirs.fields().iter().map(|entry| entry.name)));
    }
}

#[test]
fn a_refusal_is_an_error() {
    let mut out = [0; 64];
    let refusal = obscurlane::build(b"SMID.1", b"-A", &[1, 1, 0, 0], &mut out).unwrap_err();
    assert_eq!(refusal.field, Some(field::identity::MANUFACTURER));
    assert_eq!(refusal.to_string(), "6: a field is not of its text type (field 1)");
    let error: Box<dyn std::error::Error> = refusal.into();
    assert_eq!(error.downcast_ref(), Some(&refusal));
}

#[test]
fn what_is_read_is_shown_as_text() {
    let bytes = worked("ID_MAN");
    let shown = format!("{:?}", Record::read_identity(&bytes).expect("accepted"));
    assert_eq!(
        shown,
        "Record { kind: Smman, Manufacturer: \"Prism\", MID: \"A\", GNT: \"20180115T140000Z\", \
         Fingerprint: \"105717ACA4A50852\" }"
    );
    let bytes = worked("KEY1_1");
    let View::WrappedKey(key) = Record::read(&bytes).expect("accepted").view() else {
        panic!("no wrapped key");
    };
    let shown = format!("{:?}", key.cards().nth(2));
    assert_eq!(shown, "Some(Card { name: \"DKG\", value: \"02\" })");
    assert!(format!("{key:?}").starts_with("WrappedKey { nonce: \"000000000000000000000001\", "));
    let shown = format!("{:?}", obscurlane::line_at(b"a\xFF\n", 0).expect("a line"));
    assert!(
        shown.starts_with("Line { start: 0, bytes: \"a\\xff\", next: 3, answer: Err("),
        "{shown}"
    );
}
