#!/usr/bin/env python3
"""Compares the program's pages with those of moto, another implementation of the service, on random buckets.

    tests/program/against_moto.py PROGRAM [--buckets N] [--seed N]

It needs the Python packages moto and boto3 (`pip install 'moto[s3]' boto3`), and says so where they are not there.
The objects of a bucket made in moto become a session by examples/from_listing; each listing is followed to its
end, page by page, in both. One case is left out, which the service's documentation leaves open: a `start-after`
inside a common prefix.
"""
import argparse
import json
import os
import random
import subprocess
import sys
from pathlib import Path
from urllib.parse import quote

sys.path.insert(0, str(Path(__file__).resolve().parent.parent / "models"))
from running import make_ready

try:
    import boto3
    from botocore.handlers import set_list_objects_encoding_type_url
    from moto import mock_aws
except ImportError:
    sys.exit("against_moto.py: moto and boto3 are not installed, so nothing was compared")

FROM_LISTING = Path(__file__).resolve().parent.parent.parent / "examples" / "from_listing"
LETTERS = ["a", "b", "/", "/", "é", "€", "+", "😀", " ", "&", "%", "z"]


def word(rng, low, high):
    return "".join(rng.choice(LETTERS) for _ in range(rng.randint(low, high)))


def random_query(rng, keys):
    key = rng.choice(keys)
    query = {
        "prefix": rng.choice(["", key[: rng.randint(0, 2)]]),
        "delimiter": rng.choice(["", "/", "/", word(rng, 1, 1)]),
        "start-after": rng.choice(["", "", rng.choice(keys), word(rng, 1, 2)]),
        "max-keys": rng.choice(["1", "2", "3", "5", "1000"]),
    }
    return {name: value for name, value in query.items() if value}


def is_left_open(query):
    """Whether `start-after` begins with a common prefix of the listing, and the answer is not documented."""
    after, prefix, delimiter = (query.get(name, "") for name in ("start-after", "prefix", "delimiter"))
    end = after.find(delimiter, len(prefix)) if delimiter and after.startswith(prefix) else -1
    return end >= 0


def pages_of_moto(s3, bucket, query):
    names = {"prefix": "Prefix", "delimiter": "Delimiter", "start-after": "StartAfter"}
    asked = {names[name]: value for name, value in query.items() if name in names}
    asked.update(Bucket=bucket, MaxKeys=int(query["max-keys"]))
    while True:
        page = s3.list_objects_v2(**asked)
        yield shown(page)
        if not page["IsTruncated"]:
            return
        asked["ContinuationToken"] = page["NextContinuationToken"]


def v1_pages_of_moto(s3, bucket, query):
    """The pages of the same listing by version 1, each from the last entry of the page before: a key or a common prefix.
    The next markers of moto are numbers of its own, and not that entry, so they are not used and not compared."""
    asked = dict(Bucket=bucket, MaxKeys=int(query["max-keys"]), Prefix=query.get("prefix", ""), Delimiter=query.get("delimiter", ""))
    while True:
        page = s3.list_objects(**asked)
        yield asked.get("Marker", ""), v1_shown(page)
        if not page["IsTruncated"]:
            return
        told = v1_shown(page)
        last = [key for key, _, _ in told["Contents"][-1:]] + told["CommonPrefixes"][-1:]
        asked["Marker"] = max(last, key=str.encode)


def v1_shown(page):
    """What both say of a page of version 1."""
    return {
        "Contents": [(item["Key"], item["ETag"].strip('"'), item["Size"]) for item in page.get("Contents", [])],
        "CommonPrefixes": [item["Prefix"] for item in page.get("CommonPrefixes", [])],
        **{name: page[name] for name in ("IsTruncated", "MaxKeys")},
    }


def v1_pages_of_program(program, session, query, markers):
    given = {name: value for name, value in query.items() if name != "start-after"}
    text = session
    for marker in markers:
        asked = dict(given, marker=marker)
        text += "LISTV1 " + "&".join("%s=%s" % (name, quote(value, safe="")) for name, value in asked.items()) + "\n"
    ran = subprocess.run([program, "run"], input=text.encode(), capture_output=True, check=True)
    replies = [json.loads(line) for line in ran.stdout.decode().splitlines()]
    return [v1_shown(reply) for reply in replies if "Contents" in reply]


def shown(page):
    """What both say of a page. Times are not compared, and an etag without its quotes."""
    return {
        "Contents": [(item["Key"], item["ETag"].strip('"'), item["Size"]) for item in page.get("Contents", [])],
        "CommonPrefixes": [item["Prefix"] for item in page.get("CommonPrefixes", [])],
        **{name: page[name] for name in ("IsTruncated", "KeyCount", "MaxKeys")},
    }


def pages_of_program(program, session, query, count):
    asked = "LIST " + "&".join("%s=%s" % (name, quote(value, safe="")) for name, value in query.items())
    text = session + asked + "\n" + "NEXT\n" * (count - 1)
    ran = subprocess.run([program, "run"], input=text.encode(), capture_output=True, check=True)
    replies = [json.loads(line) for line in ran.stdout.decode().splitlines()]
    return [shown(reply) for reply in replies if "Contents" in reply]


def session_of(s3, bucket):
    listing = json.dumps(s3.list_objects_v2(Bucket=bucket), default=lambda time: time.isoformat())
    return subprocess.run([FROM_LISTING], input=listing.encode(), capture_output=True, check=True).stdout.decode()


def compare(program, buckets, seed):
    rng, pages, left_out = random.Random(seed), 0, 0
    s3 = boto3.client("s3", region_name="us-east-1", aws_access_key_id="none", aws_secret_access_key="none")
    # boto3 asks a listing of version 1 for escaped texts by itself, and takes a plus sign for an escaped space; moto
    # escapes no common prefix there
    s3.meta.events.unregister("before-parameter-build.s3.ListObjects", set_list_objects_encoding_type_url)
    for bucket in ("bucket-%d" % at for at in range(buckets)):
        keys = sorted({word(rng, 1, 5) for _ in range(rng.randint(1, 15))})
        s3.create_bucket(Bucket=bucket)
        for key in keys:
            s3.put_object(Bucket=bucket, Key=key, Body=key.encode() * rng.randint(0, 9))
        session = session_of(s3, bucket)
        for query in (random_query(rng, keys) for _ in range(12)):
            if is_left_open(query):
                left_out += 1
                continue
            wanted = list(pages_of_moto(s3, bucket, query))
            got = pages_of_program(program, session, query, len(wanted))
            if got != wanted:
                sys.exit("keys %r\nquery %r\nprogram %r\nmoto    %r" % (keys, query, got, wanted))
            pages += len(wanted)
            if "delimiter" in query:
                # moto does not count common prefixes with the keys of a page of version 1
                query = dict(query, **{"max-keys": "1000"})
            asked = list(v1_pages_of_moto(s3, bucket, query))
            wanted = [page for _, page in asked]
            got = v1_pages_of_program(program, session, query, [marker for marker, _ in asked])
            if got != wanted:
                sys.exit("version 1: keys %r\nquery %r\nprogram %r\nmoto    %r" % (keys, query, got, wanted))
            pages += len(wanted)
    print("%d pages are those of moto; %d listings were left out, since `start-after` is inside a common prefix" % (pages, left_out))


def main():
    parser = argparse.ArgumentParser(description=__doc__.split("\n")[0])
    parser.add_argument("program")
    parser.add_argument("--buckets", type=int, default=50)
    parser.add_argument("--seed", type=int, default=7)
    options = parser.parse_args()
    make_ready(options.program)
    # No address on the network is asked: moto answers in this process.
    os.environ.setdefault("AWS_EC2_METADATA_DISABLED", "true")
    with mock_aws():
        compare(str(Path(options.program).resolve()), options.buckets, options.seed)


if __name__ == "__main__":
    main()
