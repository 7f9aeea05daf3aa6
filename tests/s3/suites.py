"""Suites of S3 that others wrote, over an endpoint, as they are: minio-go's functional tests, and those of OpenStack Swift's s3api.

What each asks that is not done here stands below with the reason. Any other case of them that fails is wrong, and so is one of these that does not: then the reason
is no more. Cases that sign by signature 2 are left out, which is not taken here. A suite has the endpoint's tenant for itself: it removes all of its buckets.

A case that fails is named with its reason, so that it is seen which one begins to fail. One that passes has to go from the list, so the list is
true.
"""

import json
import os
import re
import shutil
import subprocess
import tempfile
import xml.etree.ElementTree as ElementTree
from pathlib import Path

LONGEST = 600  # seconds of one case, or of Swift's suites together
MINIO = Path("/usr/share/gocode/src/github.com/minio/minio-go/v7/functional_tests.go")  # of Debian's golang-github-minio-minio-go-v7-dev
BY_SIGNATURE_2 = ("NewStaticV2", "CredsV2: true")  # words of such a case, in the one suite and in the other
BUILD = {"GO111MODULE": "off", "GOPATH": "/usr/share/gocode", "CGO_ENABLED": "0"}

NOT_OF_MINIO = {
    "buckets with object lock": (
        "testPutObjectWithVersioning testRemoveMultipleObjectsWithResult testRemoveObjects testListObjectVersions testStatObjectWithVersioning testGetObjectWithVersioning testCopyObjectWithVersioning"
        " testConcurrentCopyObjectWithVersioning testComposeObjectWithVersioning testRemoveObjectWithVersioning testRemoveObjectsWithVersioning testObjectTaggingWithVersioning"
    ),
    "encryption by the server": (
        "testSSECEncryptionPutGet testSSECEncryptionFPut testSSECEncryptedGetObjectReadAtFunctional testSSECEncryptedGetObjectReadSeekFunctional testEncryptedSSECToSSECCopyObject"
        " testEncryptedSSECToUnencryptedCopyObject testUnencryptedToSSECCopyObject testEncryptedEmptyObject testDecryptedCopyObject testSSECEncryptedToSSECCopyObjectPart"
        " testSSECMultipartEncryptedToSSECCopyObjectPart testSSECEncryptedToUnencryptedCopyPart testUnencryptedToSSECCopyObjectPart testEncryptedSSECToSSES3CopyObject"
        " testEncryptedSSES3ToSSECCopyObject testSSECEncryptedToSSES3CopyObjectPart testSSES3EncryptedToSSECCopyObjectPart testSSES3EncryptionPutGet testSSES3EncryptionFPut"
        " testSSES3EncryptedGetObjectReadAtFunctional testSSES3EncryptedGetObjectReadSeekFunctional testEncryptedSSES3ToSSES3CopyObject testEncryptedSSES3ToUnencryptedCopyObject"
        " testUnencryptedToSSES3CopyObject testUnencryptedToSSES3CopyObjectPart testSSES3EncryptedToUnencryptedCopyPart testSSES3EncryptedToSSES3CopyObjectPart"
    ),
    "other storage classes": "testStorageClassMetadataPutObject testStorageClassMetadataCopyObject testListObjects",
    "ACLs": "testGetObjectACLContext",
    "policies that let list": "testFunctional",
    "events": "testBucketNotification",
    "files in an archive, which is MinIO's own": "testGetObjectS3Zip",
    "forms whose URL names no tenant, where nginx has several": "testPresignedPostPolicy",
}
NOT_OF_MINIO_13 = {**NOT_OF_MINIO}
NOT_OF_SWIFT = {
    "ACLs": "TestS3AclSigV4.test_acl TestS3AclSigV4.test_get_bucket_acl_error TestS3AclSigV4.test_get_object_acl_error TestS3AclSigV4.test_put_bucket_acl_error",
    "parts may be short": "TestS3ApiMultiUploadSigV4.test_complete_multi_upload_error TestS3ApiMultiUploadSigV4.test_complete_upload_min_segment_size",
    "conditions of puts are judged": "TestS3ApiObjectSigV4.test_put_object_conditional_requests",
    "several ranges in one get are told whole, as Amazon does": "TestS3ApiObjectSigV4.test_get_object_range",
    "a listing goes on with all that are left of a key, where its marker is no version of it": "TestObjectVersioning.test_get_versioned_object_key_marker",
    "a list of uploads tells its last one": "TestS3ApiMultiUploadSigV4.test_object_multi_upload",
    "a document of 100 MB is too long, rather than malformed": "TestS3ApiMultiDeleteSigV4.test_delete_multi_objects_error",
    "a request with two dates": "TestS3ApiServiceSigV4.test_service_error_no_date_header",
    "a word that no method of HTTP is": "TestS3ApiBucket.test_bucket_invalid_method_error TestS3ApiBucketSigV4.test_bucket_invalid_method_error",
    "names of headers that HTTP has not": "TestS3ApiObjectSigV4.test_put_object_weird_metadata",
    "a header of Swift's own": "TestS3ApiObjectSigV4.test_put_object_robots_tag",
    "an upload that is not there, in XML that is malformed": "TestS3ApiXxeInjection.test_complete_multipart_upload",
}
OF_SIGNATURE_2 = "Signature version 2 is not taken here"
CLASSES_OF_SIGNATURE_2 = {"TestS3Acl", "TestS3ApiMultiDelete", "TestS3ApiMultiUpload", "TestS3ApiObject", "TestS3ApiPresignedUrls", "TestS3ApiService", "TestS3ApiVersioning"}  # (by Swift's older client)


def judged(failed, passed, known):
    """What is wrong, of the names of cases."""
    expected = {name for names in known.values() for name in names.split()}
    wrong = [f"{name}: {failed[name]}" for name in sorted(failed.keys() - expected)]
    return wrong + [f"{name} passes, and is said not to" for name in sorted(expected & passed)]


# minio-go


def minio_cases(text):
    """All cases by signature 4 of minio-go's tests, which its program does one after another."""
    names = re.findall(r"^\t+(test\w+)\(\)$", text[text.index("\nfunc main() {") :], re.MULTILINE)
    bodies = {name: text[text.index(f"func {name}() {{") :].partition("\n}\n")[0] for name in names}
    return [name for name in bodies if not any(word in bodies[name] for word in BY_SIGNATURE_2)]


def minio_program(text, cases):
    """The same program, but it does the cases that its words name."""
    head, main, rest = re.sub(r"^//( \+|go:)build mint\n", "", text, flags=re.MULTILINE).partition("\nfunc main() {")
    table = "".join(f'"{name}": {name},\n' for name in cases)
    return f"{head}{main}{rest.partition('tls := ')[0]}cases := map[string]func(){{\n{table}}}\nfor _, name := range os.Args[1:] {{\ncases[name]()\n}}\n}}\n"


def minio_built(root, room):
    """Its cases, and the program that does them; by the system that is in the folder root, where one is named: what that builds runs here too."""
    text = (Path(root or "/") / MINIO.relative_to("/")).read_text()
    cases, place = minio_cases(text), Path(tempfile.mkdtemp(dir=f"{root}/tmp" if root else room))
    (place / "cases.go").write_text(minio_program(text, cases))
    inside = Path("/tmp") / place.name if root else place
    command = [*(["chroot", root] if root else []), "go", "build", "-o", inside / "cases", inside / "cases.go"]
    subprocess.run(command, env={**os.environ, **BUILD, "GOCACHE": f"{inside}/built"}, check=True)
    shutil.move(place / "cases", Path(room) / "cases")
    shutil.rmtree(place)
    return cases, Path(room) / "cases"


def minio(client, host, access, secret, room, root=""):
    """Each case by itself, with no bucket before it."""
    cases, program = minio_built(root, room)
    words = {**os.environ, **BUILD}
    words |= {"SERVER_ENDPOINT": host, "ACCESS_KEY": access, "SECRET_KEY": secret, "ENABLE_HTTPS": "0", "MINT_MODE": "full"}
    failed, passed = {}, set()
    for name in cases:
        empty(client)
        try:
            done = subprocess.run([program, name], env=words, cwd=room, capture_output=True, text=True, timeout=LONGEST)
        except subprocess.TimeoutExpired:
            failed[name] = f"not done in {LONGEST} seconds"
            continue
        told = [json.loads(line) for line in done.stdout.splitlines() if line.startswith("{")]
        if [each["status"] for each in told] == ["PASS"] and not done.returncode:
            passed.add(name)
        else:
            failed[name] = (done.stdout + done.stderr).strip()[-500:]
    empty(client)
    print(f"minio-go: {len(cases)} cases, {len(passed)} passed", flush=True)
    return judged(failed, passed, NOT_OF_MINIO_13 if root else NOT_OF_MINIO) + ([] if passed else ["no case passed"])


def empty(client):
    """Removes all buckets, with all versions and uploads."""
    for bucket in [each["Name"] for each in client.list_buckets()["Buckets"]]:
        for upload in client.list_multipart_uploads(Bucket=bucket).get("Uploads", []):
            client.abort_multipart_upload(Bucket=bucket, Key=upload["Key"], UploadId=upload["UploadId"])
        while True:
            told = client.list_object_versions(Bucket=bucket)
            found = [{"Key": each["Key"], "VersionId": each["VersionId"]} for kind in ("Versions", "DeleteMarkers") for each in told.get(kind, [])]
            if not found:
                break
            client.delete_objects(Bucket=bucket, Delete={"Objects": found})
        client.delete_bucket(Bucket=bucket)


# Swift's

CONFIG = """[s3api_test]
endpoint = {url}
region = us-east-1
access_key1 = {access}
secret_key1 = {secret}
access_key2 = {other}
secret_key2 = {other_secret}
[func_test]
auth_uri = {url}/auth/v1.0
s3_storage_url = {url}/
username = {access}
password = {secret}
s3_access_key = {access}
s3_secret_key = {secret}
s3_access_key2 = {other}
s3_secret_key2 = {other_secret}
s3_access_key3 = {reader}
s3_secret_key3 = {reader_secret}
"""
# What they would ask Swift itself, not S3: a plugin of pytest.
PLUGIN = """import test.functional


def told():
    test.functional.cluster_info.update({
        "s3api": {"allow_multipart_uploads": True, "min_segment_size": 1, "max_bucket_listing": 1000, "max_multi_delete_objects": 1000, "max_parts_listing": 1000, "max_upload_part_num": 10000, "s3_acl": False},
        "swift": {"max_object_name_length": 1024, "max_file_size": 5 << 30},
    })


test.functional.get_cluster_info, test.functional.teardown_package = told, lambda: None
"""


def swift(client, source, url, keys, room):
    """By their source, which `apt-get source swift` brings; keys are of two tenants, and one of the first that may read alone, each with its secret."""
    (access, secret), (other, other_secret), (reader, reader_secret) = keys
    config, told = Path(room) / "swift.conf", Path(room) / "told.xml"
    config.write_text(CONFIG.format(url=url, access=access, secret=secret, other=other, other_secret=other_secret, reader=reader, reader_secret=reader_secret))
    (Path(room) / "beside_s3.py").write_text(PLUGIN)
    words = {name: value for name, value in os.environ.items() if "proxy" not in name.lower()}
    words |= {"SWIFT_TEST_CONFIG_FILE": str(config), "SWIFT_TEST_QUIET_BOTO_LOGS": "1", "PYTHONPATH": f"{room}:{source}", "PYTHONDONTWRITEBYTECODE": "1"}
    pytest = ["/usr/bin/python3", "-W", "ignore", "-m", "pytest", "-q", "-p", "no:cacheprovider", "-p", "beside_s3", f"--junitxml={told}", "test/functional/s3api", "test/s3api"]
    done = subprocess.run(pytest, cwd=source, env=words, capture_output=True, text=True, timeout=LONGEST)
    if not told.exists():
        return [f"Swift's suites: {(done.stdout + done.stderr)[-1_000:]}"]
    failed, passed, skipped = {}, set(), 0
    for case in ElementTree.parse(told).getroot().iter("testcase"):
        name, faults = f"{case.get('classname').rpartition('.')[2]}.{case.get('name')}", [each.text or "" for kind in ("failure", "error") for each in case.iter(kind)]
        if name.partition(".")[0] in CLASSES_OF_SIGNATURE_2 or any(OF_SIGNATURE_2 in each for each in faults):
            continue
        skipped += case.find("skipped") is not None
        if faults:
            failed[name] = faults[0][-500:]
        elif case.find("skipped") is None:
            passed.add(name)
    empty(client)
    print(f"Swift's suites: {len(failed) + len(passed)} cases by signature 4, {len(passed)} passed; they leave out {skipped}", flush=True)
    return judged(failed, passed, NOT_OF_SWIFT) + ([] if passed else ["no case passed"])
