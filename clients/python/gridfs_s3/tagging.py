"""Operations on the tags of objects."""

from dataclasses import replace

from aiohttp import web

from gridfs_client.buckets import Held

from . import tags
from .copying import Copies
from .errors import S3Error
from .gateway import TURNS, Operations
from .objects import Objects
from .places import Object, Values
from .requests import Asked, answer
from .store import Body, Changed, NoLine, Store, expect_same
from .versions import Place


class Tagging(Operations):
    def __init__(self, objects: Objects, copies: Copies):
        super().__init__(objects.gateway)
        self.objects, self.copies = objects, copies

    async def get_object_tagging(self, asked: Asked) -> web.Response:
        """200: in the order in which they were given. 404 NoSuchBucket, NoSuchKey, NoSuchVersion."""
        place = await self.objects.place_of(asked)
        found = await self.objects.found(place)
        return answer(tags.document_of(found.values), headers=place.told(found))

    async def put_object_tagging(self, asked: Asked) -> web.Response:
        """200: the object has these tags and no others. The errors of a body; 400 InvalidTag, MalformedXML; 404 NoSuchBucket, NoSuchKey; 507 InsufficientStorage;
        501 NotImplemented where this gateway has not all sessions. After these nothing was changed."""
        place = await self.objects.place_of(asked)
        return answer(headers=await self.replace(asked, place, tags.in_document(await self.gateway.document(asked, "Tagging"))))

    async def delete_object_tagging(self, asked: Asked) -> web.Response:
        """204: the object has no tags. 404 NoSuchBucket, NoSuchKey; 501 NotImplemented where this gateway has not all sessions."""
        return answer(status=204, headers=await self.replace(asked, await self.objects.place_of(asked), {}))

    async def replace(self, asked: Asked, place: Place, given: Values) -> dict[str, str]:
        """Gives an object these tags, and leaves all else as it is, its time and its place among versions too; the headers that tell of which version. Where its
        content can't stay where it is, that is put anew. A put that comes meanwhile is never undone: what was seen is compared right before the change, as for a
        conditional put."""
        found = await self.objects.found(place)
        if place.is_latest:
            place = replace(place, version=found.version)
        name = place.name
        is_settled = self.gateway.judged(name, lambda held: None)

        def values(_: Store, found: Object) -> Values:
            kept = {word: value for word, value in found.values.items() if word not in tags.among(found.values)}
            return {**kept, **given, "t": str(found.time), **({"o": "{}.{}".format(*found.order)} if place.state else {})}

        def put(store: Store, source: Body, found: Object) -> Held:
            return store.put_object(name, source, lambda: values(store, found), self.gateway.judged(name, lambda held: expect_same(held, found.held)))

        for _ in range(TURNS):
            try:
                if not await self.copies.touched(asked, place, values, is_settled):
                    await self.copies.copied(place, asked, put, lambda found: (0, found.size), name, condition=is_settled)
                return place.told(found)
            except Changed:
                pass
            except NoLine:
                raise S3Error("InsufficientStorage", "Tags stand in the line of an object's name, and its page has no room for these.") from None
        raise S3Error("ServiceUnavailable", "Many others change this at the same time. Nothing was changed.")
