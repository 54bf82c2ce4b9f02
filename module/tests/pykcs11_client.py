"""Uses the module by PyKCS11. Called with the module's file and the user's PIN."""
import sys

import PyKCS11
from PyKCS11 import LowLevel as names

MESSAGE = b"what do ya want for nothing?"
HMAC = "5bdcc146bf60754e6a042426089575c75a003f089d2739839dec58b964ec3843"
SHA256_OF_ABC = "ba7816bf8f01cfea414140de5dae2223b00361a396177a9cb410ff61f20015ad"


def equal(what, made, expected):
    if made != expected:
        sys.exit(f"{what} is {made}, and not {expected}")


def use_hmac(session):
    key = session.createObject([
        (names.CKA_CLASS, names.CKO_SECRET_KEY), (names.CKA_KEY_TYPE, names.CKK_GENERIC_SECRET),
        (names.CKA_TOKEN, True), (names.CKA_LABEL, "key"), (names.CKA_VALUE, b"Jefe")])
    hmac = PyKCS11.Mechanism(names.CKM_SHA256_HMAC, None)
    signature = session.sign(key, MESSAGE, hmac)
    equal("the HMAC", bytes(signature).hex(), HMAC)
    equal("C_Verify", session.verify(key, MESSAGE, signature, hmac), True)
    signature[0] ^= 1
    equal("C_Verify", session.verify(key, MESSAGE, signature, hmac), False)


def use_objects(session):
    key = session.generateKey([
        (names.CKA_CLASS, names.CKO_SECRET_KEY), (names.CKA_VALUE_LEN, 32),
        (names.CKA_LABEL, "generated"), (names.CKA_TOKEN, True)],
        PyKCS11.Mechanism(names.CKM_GENERIC_SECRET_KEY_GEN, None))
    equal("the key's length", len(session.getAttributeValue(key, [names.CKA_VALUE])[0]), 32)
    session.setAttributeValue(key, [(names.CKA_LABEL, "renamed")])
    labels = [session.getAttributeValue(found, [names.CKA_LABEL])[0]
              for found in session.findObjects([])]
    equal("the labels", labels, ["key", "renamed"])
    session.destroyObject(key)
    equal("the objects", len(session.findObjects([(names.CKA_LABEL, "renamed")])), 0)


def main():
    library = PyKCS11.PyKCS11Lib()
    library.load(sys.argv[1])
    equal("the slots", library.getSlotList(), [0])
    equal("the label", library.getTokenInfo(0).label.strip(), "tok")
    equal("the mechanisms", len(library.getMechanismList(0)), 13)
    session = library.openSession(0, names.CKF_SERIAL_SESSION | names.CKF_RW_SESSION)
    session.login(sys.argv[2])
    digest = session.digest(b"abc", PyKCS11.Mechanism(names.CKM_SHA256, None))
    equal("the digest", bytes(digest).hex(), SHA256_OF_ABC)
    use_hmac(session)
    use_objects(session)
    equal("random bytes", len(session.generateRandom(16)), 16)
    session.logout()
    session.closeSession()
    print("passed")


if __name__ == "__main__":
    main()
