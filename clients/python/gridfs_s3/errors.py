"""The errors of S3 that this endpoint tells: their codes, statuses and messages."""

import sys
import traceback
from collections.abc import Mapping

from gridfs_client.errors import CarrierFault, ClientError, NoRoom, Replaced, SessionTaken, Unanswered
from gridfs_client.local import visible

ERRORS = {
    "AccessControlListNotSupported": (400, "The bucket does not allow ACLs: all is its tenant's alone here, but what a policy lets anybody read."),
    "AccessDenied": (403, "Access is denied."),
    "AccessForbidden": (403, "Access is forbidden."),
    "AuthorizationHeaderMalformed": (400, "The header Authorization is malformed."),
    "AuthorizationQueryParametersError": (400, "The parameters of the signed URL are malformed."),
    "BadDigest": (400, "The content has another MD5 or checksum than the request says."),
    "BadRequest": (400, "The request is not HTTP."),
    "BucketAlreadyOwnedByYou": (409, "The bucket exists already, and is yours."),
    "BucketNotEmpty": (409, "The bucket is not empty."),
    "EntityTooLarge": (400, "The content is longer than one request may put."),
    "EntityTooSmall": (400, "The file is shorter than the policy lets it be."),
    "IncompleteBody": (400, "The content is not as long as the request says."),
    "IncorrectNumberOfFilesInPostRequest": (400, "A form has one file, as its last field."),
    "InsufficientStorage": (507, "The tenant has no room for it."),
    "InternalError": (500, "The gateway met a fault that it does not know."),
    "InvalidAccessKeyId": (403, "There is no such access key."),
    "InvalidArgument": (400, "A parameter is malformed."),
    "InvalidBucketName": (400, "A bucket's name has 3 to 63 of a-z, 0-9, - and ., a letter or digit at both ends, and is no address."),
    "InvalidChunkSizeError": (403, "Only the last chunk is expected to have a size less than 8192 bytes."),
    "InvalidDigest": (400, "Content-MD5 is malformed."),
    "InvalidEncryptionAlgorithmError": (400, "Nothing is encrypted here at the wish of a request."),
    "InvalidLocationConstraint": (400, "There is no such region here."),
    "InvalidPartNumber": (416, "The requested partnumber is not satisfiable"),
    "InvalidPart": (400, "A part is not there, or has another ETag."),
    "InvalidPartOrder": (400, "The parts are not in ascending order."),
    "InvalidPolicyDocument": (400, "The policy of a form is JSON in base64, with an expiration and conditions."),
    "InvalidRange": (416, "The object has none of these bytes."),
    "InvalidRequest": (400, "The request is malformed."),
    "InvalidStorageClass": (400, "The only storage class is STANDARD."),
    "InvalidTag": (400, "A tag is malformed."),
    "InvalidURI": (400, "The URI is malformed."),
    "KeyTooLongError": (400, "A key has at most 1,024 bytes."),
    "MalformedPOSTRequest": (400, "The body is no form of multipart/form-data."),
    "MalformedPolicy": (400, "The policy is no JSON that a policy of a bucket is."),
    "MalformedXML": (400, "The XML you provided was not well-formed or did not validate against our published schema"),
    "MaxPostPreDataLengthExceeded": (400, "The fields of a form before its file are too long."),
    "MetadataTooLarge": (400, "An object has at most 2,048 bytes of metadata."),
    "MethodNotAllowed": (405, "This resource has no such method."),
    "MissingContentLength": (411, "The header Content-Length is required."),
    "NoSuchBucket": (404, "There is no such bucket."),
    "NoSuchBucketPolicy": (404, "The bucket has no policy."),
    "NoSuchCORSConfiguration": (404, "The bucket has no CORS configuration."),
    "NoSuchKey": (404, "The specified key does not exist."),
    "NoSuchLifecycleConfiguration": (404, "The bucket has no lifecycle configuration."),
    "NoSuchPublicAccessBlockConfiguration": (404, "The bucket has no public access block."),
    "NoSuchTagSet": (404, "The bucket has no tags."),
    "NoSuchUpload": (404, "There is no such upload: it was completed or aborted, or never begun."),
    "NoSuchVersion": (404, "There is no such version of this key."),
    "NotImplemented": (501, "This endpoint does not do that."),
    "NotModified": (304, ""),
    "NoSuchWebsiteConfiguration": (404, "The bucket has no website configuration."),
    "ObjectLockConfigurationNotFoundError": (404, "The bucket has no object lock."),
    "OwnershipControlsNotFoundError": (404, "The bucket has no ownership controls."),
    "PreconditionFailed": (412, "A condition of the request does not hold."),
    "ReplicationConfigurationNotFoundError": (404, "The bucket has no replication."),
    "RequestHeaderSectionTooLarge": (400, "The headers of the request are too long."),
    "RequestTimeout": (400, "The content did not arrive in time."),
    "RequestTimeTooSkewed": (403, "The request's time differs too much from the gateway's."),
    "ServerSideEncryptionConfigurationNotFoundError": (404, "The bucket has no encryption configuration."),
    "ServiceUnavailable": (503, "The grid does not answer. A change may still take effect. Please retry."),
    "SignatureDoesNotMatch": (403, "The signature is not that of this request by the key's secret."),
    "UserKeyMustBeSpecified": (400, "A key is wanted, which is not empty."),
    "XAmzContentSHA256Mismatch": (400, "The content has another SHA-256 than was signed."),
}


class S3Error(Exception):
    """What a client is told by a code, with its status, a message, elements besides, and headers."""

    def __init__(self, code: str, message: str = "", **more: str):
        self.code, self.more = code, more
        self.headers: Mapping[str, str] = {}
        self.status, usual = ERRORS[code]
        self.message = message or usual
        super().__init__(self.message)


speaks = "gridfs-s3: "


def tell(text: str) -> None:
    print(f"{speaks}{visible(text)}", file=sys.stderr, flush=True)


def speak_for(name: str) -> None:
    """From now on what is told begins with the name too, as several gateways tell it in one place."""
    global speaks
    speaks = f"gridfs-s3: {name}: "


def error_of(fault: BaseException) -> S3Error:
    """The error of S3 for a fault of the client for names, or of this program: what whoever runs it should see goes to standard error.

    507 InsufficientStorage: no room; nothing was changed. 503 ServiceUnavailable: no answer; a change may still take effect. 500 InternalError.
    """
    if isinstance(fault, S3Error):
        return fault
    if isinstance(fault, NoRoom):
        return S3Error("InsufficientStorage", f"The tenant has no room: {fault}.")
    if isinstance(fault, Replaced):
        return S3Error("ServiceUnavailable", "The object was replaced again and again while it was read.")
    if isinstance(fault, (Unanswered, SessionTaken, CarrierFault)):
        tell(f"{type(fault).__name__}: {fault}")
        return S3Error("ServiceUnavailable", f"The grid does not answer: {fault}. A change may still take effect.")
    if isinstance(fault, ClientError):
        tell(str(fault))
        return S3Error("InternalError", str(fault))
    traceback.print_exception(fault, file=sys.stderr)
    return S3Error("InternalError")
