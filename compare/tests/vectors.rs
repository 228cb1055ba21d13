//! The implementation held against the worked example of document 003, and against Appendix A of
//! document 000.

use compare::agreement::{centre_text, item, join, module_text, shared_info, split};
use compare::attributes::{attribute, attribute_named};
use compare::build::build;
use compare::crc::crc16;
use compare::file::{count, lines, Line};
use compare::fingerprint::{check, hash_input, write};
use compare::kind::Kind;
use compare::newer::newer;
use compare::record::{identity_field, read_identity, read_record, record_field, Record};
use compare::refusal::Refusal;
use compare::sample::PublicKey;
use compare::sha384::sha384;
use compare::text::{base16_decode, check_text};
use compare::worked::{appendix_a, worked, IDENTITIES, RECORDS, WRAPPED_KEYS};

/// Name, kind, length and check of every record and identity that is accepted.
const TABLE: [(&str, Kind, usize, &str); 18] = [
    ("ID_KMC", Kind::Kmcid, 73, "4C31"),
    ("ID_MAN", Kind::Smman, 54, "8B04"),
    ("ID_SM", Kind::Smid, 60, "8EFF"),
    ("PUBKEY_KMC", Kind::PkEcdh, 302, "B8F9"),
    ("PUBKEY_MAN", Kind::PkEcdsa, 530, "1F11"),
    ("PUBKEY_SM", Kind::PkEcdh, 535, "4971"),
    ("VKLOADREQ", Kind::VkloadReq, 434, "F6B3"),
    ("VKLOADRESP", Kind::VkloadResp, 219, "D743"),
    ("APPA_ID_KMC", Kind::Kmcid, 58, "E7BF"),
    ("APPA_ID_SM", Kind::Smid, 60, "1F8C"),
    ("APPA_VKLOADRESP", Kind::VkloadResp, 204, "71CC"),
    ("KEY1_1", Kind::WrappedKey, 162, "4726"),
    ("KEY1_2", Kind::WrappedKey, 305, "5AF9"),
    ("APPA_KEY1_1", Kind::WrappedKey, 273, "8F06"),
    ("APPA_KEY1_2", Kind::WrappedKey, 273, "5D2D"),
    ("APPA_KEY1_3", Kind::WrappedKey, 273, "576D"),
    ("APPA_KEY1_4", Kind::WrappedKey, 254, "25EB"),
    ("APPA_KEY1_5", Kind::WrappedKey, 254, "19FA"),
];

fn read_either(bytes: &[u8], kind: Kind) -> Result<Record<'_>, Refusal> {
    if Kind::IDENTITIES.contains(&kind) {
        read_identity(bytes)
    } else {
        read_record(bytes)
    }
}

#[test]
fn lengths_checks_and_kinds_come_out() {
    for (name, kind, length, check) in TABLE {
        let bytes = worked(name);
        assert_eq!(bytes.len(), length, "{name}");
        let (body, end) = bytes.split_at(length - 4);
        assert_eq!(end, check.as_bytes(), "{name}");
        assert_eq!(check_text(crc16(body)), check, "{name}");
        assert_eq!(read_either(&bytes, kind).map(|record| record.kind), Ok(kind), "{name}");
    }
}

#[test]
fn the_table_names_every_worked_record() {
    for name in IDENTITIES.iter().chain(&RECORDS) {
        assert!(TABLE.iter().any(|entry| entry.0 == *name), "{name}");
    }
}

#[test]
fn each_call_reads_only_its_kinds() {
    for name in IDENTITIES {
        assert_eq!(read_record(&worked(name)), Err(Refusal::UnknownKind), "{name}");
    }
    for name in RECORDS {
        assert_eq!(read_identity(&worked(name)), Err(Refusal::UnknownKind), "{name}");
    }
}

#[test]
fn rebuilding_gives_the_same_bytes_in_exact_room_only() {
    for (name, kind, length, _) in TABLE {
        let bytes = worked(name);
        let fields = read_either(&bytes, kind).unwrap().fields;
        let lengths: Vec<u64> = fields.iter().map(|field| field.len() as u64).collect();
        let build =
            |output: &mut [u8]| build(kind.name().as_bytes(), &fields.concat(), &lengths, output);

        let mut exact = vec![0; length];
        assert_eq!(build(&mut exact), Ok(length), "{name}");
        assert_eq!(exact, bytes, "{name}");

        let mut wide = vec![0xAA; length + 3];
        assert_eq!(build(&mut wide), Ok(length), "{name}");
        assert_eq!(wide, [&bytes[..], &[0xAA; 3]].concat(), "{name}");

        let mut short = vec![0xAA; length - 1];
        assert_eq!(build(&mut short), Err(Refusal::ShortOutput), "{name}");
        assert_eq!(short, vec![0xAA; length - 1], "{name}");
    }
}

#[test]
fn fields_are_parts_of_the_callers_bytes() {
    let request = worked("VKLOADREQ");
    let names = ["ID_SM", "ID_KMC", "TVP", "HWID", "FWID", "QE", "MACTAG_SM"];
    for (number, name) in (1..).zip(names) {
        let field = record_field(&request, number).unwrap();
        assert_eq!(field, worked(name), "{name}");
        assert!(request.as_ptr_range().contains(&field.as_ptr()), "{name}");
    }
    let response = worked("VKLOADRESP");
    for (number, name) in (1..).zip(["ID_KMC", "ID_SM", "TVP", "MACTAG_KMC"]) {
        assert_eq!(record_field(&response, number), Ok(&worked(name)[..]), "{name}");
    }
    let key = worked("PUBKEY_SM");
    for (number, name) in [(1, "ID_SM"), (2, "Q_SM"), (4, "ID_MAN"), (5, "SIG_SM")] {
        assert_eq!(record_field(&key, number), Ok(&worked(name)[..]), "{name}");
    }
    for (name, fingerprint) in
        [("ID_KMC", "FINGERPRINT_KMC"), ("ID_MAN", "FINGERPRINT_MAN"), ("ID_SM", "FINGERPRINT_SM")]
    {
        assert_eq!(identity_field(&worked(name), 4), Ok(&worked(fingerprint)[..]), "{name}");
    }
}

#[test]
fn an_unsigned_key_has_two_empty_fields_and_no_sixth() {
    let key = worked("PUBKEY_KMC");
    assert_eq!(record_field(&key, 4), Ok(&[][..]));
    assert_eq!(record_field(&key, 5), Ok(&[][..]));
    for number in [0, 6, 257, 1 << 63, u64::MAX] {
        assert_eq!(record_field(&key, number), Err(Refusal::NoPart));
    }
}

#[test]
fn the_three_texts_come_out_byte_for_byte() {
    type Call = fn(&[u8], &mut [u8]) -> Result<usize, Refusal>;
    let calls: [(&str, Call, usize); 3] = [
        ("SHAREDINFO", shared_info, 163),
        ("MACDATA_SM", module_text, 276),
        ("MACDATA_KMC", centre_text, 254),
    ];
    let request = worked("VKLOADREQ");
    for (name, call, length) in calls {
        let text = worked(name);
        assert_eq!(text.len(), length, "{name}");

        let mut output = vec![0x55; length + 2];
        assert_eq!(call(&request, &mut output), Ok(length), "{name}");
        assert_eq!(output, [&text[..], &[0x55; 2]].concat(), "{name}");

        let mut exact = vec![0; length];
        assert_eq!(call(&request, &mut exact), Ok(length), "{name}");
        assert_eq!(exact, text, "{name}");

        let mut short = vec![0x55; length - 1];
        assert_eq!(call(&request, &mut short), Err(Refusal::ShortOutput), "{name}");
        assert_eq!(short, vec![0x55; length - 1], "{name}");

        for other in IDENTITIES.iter().chain(&RECORDS).filter(|&&other| other != "VKLOADREQ") {
            let mut output = vec![0x55; 1024];
            assert_eq!(call(&worked(other), &mut output), Err(Refusal::UnknownKind), "{other}");
            assert_eq!(output, vec![0x55; 1024], "{other}");
        }
    }
}

#[test]
fn the_texts_have_their_items() {
    for name in ["SHAREDINFO", "MACDATA_SM", "MACDATA_KMC"] {
        let text = worked(name);
        let items = split(&text).unwrap();
        assert_eq!(join(&items), text, "{name}");
    }
    let qe = base16_decode(&worked("QE")).unwrap();
    assert_eq!(qe.len(), 97);
    assert_eq!(item(&worked("MACDATA_SM"), 4), Ok(&qe[..]));
    assert_eq!(item(&worked("MACDATA_KMC"), 5), Ok(&qe[..]));
    assert_eq!(item(&worked("SHAREDINFO"), 1), Ok(&b"STS.KAA.1"[..]));
    assert_eq!(item(&worked("SHAREDINFO"), 5), Err(Refusal::NoPart));
}

#[test]
fn a_key_is_the_newer_of_itself_and_an_equal_one_comes_first() {
    let key = worked("PUBKEY_SM");
    let mut other = PublicKey::of_record(&key);
    other.expiry = b"20300101T000000Z".to_vec();
    let other = other.record();
    assert_eq!(newer(&key, &key), Ok(&key[..]));
    assert_eq!(newer(&key, &other), Ok(&key[..]));
    assert_eq!(newer(&other, &key), Ok(&other[..]));
    assert_eq!(newer(&key, &worked("PUBKEY_KMC")), Err(Refusal::OtherSubject));
    assert_eq!(newer(&key, &worked("VKLOADREQ")), Err(Refusal::UnknownKind));
}

#[test]
fn the_hashes_of_document_003_come_out() {
    for (input, hash) in [
        ("HASHIN_KMC", "SHA384_KMC"),
        ("HASHIN_MAN", "SHA384_MAN"),
        ("HASHIN_SM", "SHA384_SM"),
        ("SIGINPUT_MAN", "SIGHASH_MAN"),
        ("SIGINPUT_SM", "SIGHASH_SM"),
        ("KDF_INPUT", "DKM"),
    ] {
        assert_eq!(sha384(&worked(input))[..], worked(hash), "{input}");
    }
}

#[test]
fn the_three_fingerprints_come_out() {
    for (name, whose) in [("PUBKEY_KMC", "KMC"), ("PUBKEY_MAN", "MAN"), ("PUBKEY_SM", "SM")] {
        let key = worked(name);
        assert_eq!(check(&key), Ok(()), "{name}");

        let mut output = [0x55; 18];
        assert_eq!(write(&key, &mut output), Ok(16), "{name}");
        let fingerprint = worked(&format!("FINGERPRINT_{whose}"));
        assert_eq!(output[..], [&fingerprint[..], &[0x55; 2]].concat(), "{name}");

        let identity = worked(&format!("ID_{whose}"));
        let read = read_identity(&identity).unwrap();
        let [manufacturer, mid, gnt, _] = read.fields[..] else { panic!("four fields") };
        let bound = [read.kind.name().as_bytes(), manufacturer, mid, gnt];
        let input = hash_input(bound, &worked(&format!("Q_{whose}")));
        assert_eq!(input, worked(&format!("HASHIN_{whose}")), "{name}");
    }
}

#[test]
fn key_load_files_have_their_lines() {
    let numbers = |line: Line| {
        let number = line.answer.map_or_else(Refusal::number, |_| 0);
        (line.start, line.length, number)
    };
    let file = worked("KLF");
    let found: Vec<_> = lines(&file).map(numbers).collect();
    assert_eq!(found, [(0, 219, 0), (220, 162, 0), (383, 305, 0), (689, 41, 11)]);
    assert_eq!(count(&file), (4, 3));

    let file = appendix_a();
    let found: Vec<_> = lines(&file).map(numbers).collect();
    let keys = [(205, 273, 0), (479, 273, 0), (753, 273, 0), (1027, 254, 0), (1282, 254, 0)];
    assert_eq!(found, [&[(0, 204, 0)], &keys[..], &[(1537, 41, 11)]].concat());
    assert_eq!((file.len(), count(&file)), (1578, (7, 6)));
}

#[test]
fn the_fourth_key_of_appendix_a_lacks_a_character_in_print() {
    let printed = worked("APPA_KEY1_4_AS_PRINTED");
    assert_eq!(read_record(&printed), Err(Refusal::CheckDiffers));
    assert_eq!(attribute(&printed, 1), Err(Refusal::CheckDiffers));
    let mut restored = printed;
    restored.insert(137, b'C');
    assert_eq!(restored, worked("APPA_KEY1_4"));
    assert_eq!(attribute_named(&restored, b"KCV"), Ok(&b"KCVC33F45"[..]));
}

#[test]
fn attributes_are_handed_back_one_by_one_and_joined_again_are_field_2() {
    for (name, count) in WRAPPED_KEYS.into_iter().zip([7, 14, 15, 15, 15, 15, 15]) {
        let key = worked(name);
        let list = record_field(&key, 2).unwrap();
        let cards: Vec<&[u8]> = (1..).map_while(|number| attribute(&key, number).ok()).collect();
        let joined: Vec<u8> = cards.iter().flat_map(|card| [card, &b";"[..]].concat()).collect();
        assert_eq!((cards.len(), &joined[..]), (count, list), "{name}");
        for card in &cards {
            let named = attribute_named(&key, &card[..3]).unwrap();
            assert_eq!((named.as_ptr(), named.len()), (card.as_ptr(), card.len()), "{name}");
            assert!(key.as_ptr_range().contains(&card.as_ptr()), "{name}");
        }
        let beyond = count as u64 + 1;
        for number in [0, beyond, beyond + 256, 1 << 63, u64::MAX] {
            assert_eq!(attribute(&key, number), Err(Refusal::NoPart), "{name}");
        }
    }
}

#[test]
fn the_attributes_of_table_4() {
    let cards = [
        "ACT20160425T114321Z",
        "BDT19930101T000000Z",
        "CLM44fa0000",
        "CLU0",
        "DKG02",
        "EXP20170506T215959Z",
        "IUT20160903T102658Z",
        "KCV17D819",
        "KEN255",
        "KRN1",
        "KTC2",
        "SBMFFFF",
        "SGC0000112233",
        "SGNSURELOAD KMC TEST VUDK 1",
        "ULM1000",
    ];
    let key = worked("APPA_KEY1_1");
    for (number, card) in (1..).zip(cards) {
        assert_eq!(attribute(&key, number), Ok(card.as_bytes()));
        assert_eq!(attribute_named(&key, &card.as_bytes()[..3]), Ok(card.as_bytes()));
    }
    assert_eq!(attribute(&key, 16), Err(Refusal::NoPart));
    for name in ["", "A", "AC", "ACT2", "act", "ACU", "CT2", "ULM1000", "ULM1000;"] {
        assert_eq!(attribute_named(&key, name.as_bytes()), Err(Refusal::NoPart), "{name}");
    }
}
