"""The rules of OpenAPI 3.1 on what such a document has, as far as docs/openapi.json needs them, as a schema."""

METHODS = ["get", "put", "post", "delete", "options", "head", "patch", "trace"]


def fields(required, optional=(), /, **more):
    """An object with these fields and no others but extensions."""
    known = {name: more.get(name, {}) for name in [*required, *optional]}
    return {
        "type": "object",
        "required": list(required),
        "properties": known,
        "patternProperties": {"^x-": {}},
        "additionalProperties": False,
    }


def each(name, pattern="^[A-Za-z0-9._-]+$"):
    return {"type": "object", "propertyNames": {"pattern": pattern}, "additionalProperties": {"$ref": "#/$defs/" + name}}


def listed(name):
    return {"type": "array", "items": {"$ref": "#/$defs/" + name}}


def either(name):
    return {"if": {"required": ["$ref"]}, "then": {"$ref": "#/$defs/reference"}, "else": {"$ref": "#/$defs/" + name}}


TEXT, FLAG = {"type": "string"}, {"type": "boolean"}
RULES = {
    "$schema": "https://json-schema.org/draft/2020-12/schema",
    **fields(
        ["openapi", "info", "paths"],
        ["servers", "components", "security", "tags"],
        openapi={"pattern": r"^3\.1\.\d+$"},
        info={"$ref": "#/$defs/info"},
        servers=listed("server"),
        paths=each("path", "^/"),
        components={"$ref": "#/$defs/components"},
        security=listed("need"),
        tags=listed("tag"),
    ),
    "$defs": {
        "info": fields(
            ["title", "version"], ["summary", "description", "license"], title=TEXT, version=TEXT, summary=TEXT, description=TEXT
        ),
        "server": fields(["url"], ["description", "variables"], url=TEXT, description=TEXT, variables=each("variable", "")),
        "variable": fields(["default"], ["enum", "description"], default=TEXT),
        "tag": fields(["name"], ["description"], name=TEXT),
        "need": {"type": "object", "additionalProperties": {"type": "array", "items": TEXT}},
        "reference": fields(["$ref"], ["summary", "description"], **{"$ref": {"type": "string", "pattern": "^#/components/"}}),
        "path": fields(
            [],
            ["summary", "description", "parameters", *METHODS],
            parameters=listed("parameters"),
            **{name: {"$ref": "#/$defs/operation"} for name in METHODS},
        ),
        "operation": fields(
            ["responses"],
            ["operationId", "tags", "summary", "description", "parameters", "requestBody", "deprecated", "security"],
            operationId=TEXT,
            tags={"type": "array", "items": TEXT},
            parameters=listed("parameters"),
            requestBody=either("body"),
            responses={"allOf": [each("responses", "^([1-5][0-9][0-9]|default)$"), {"minProperties": 1}]},
            security=listed("need"),
        ),
        "parameters": either("parameter"),
        "parameter": {
            **fields(
                ["name", "in", "schema"],
                ["description", "required", "example"],
                name=TEXT,
                required=FLAG,
                description=TEXT,
                schema={"$ref": "#/$defs/schema"},
                **{"in": {"enum": ["query", "path", "header", "cookie"]}},
            ),
            "if": {"properties": {"in": {"const": "path"}}},
            "then": {"required": ["required"], "properties": {"required": {"const": True}}},
        },
        "body": fields(["content"], ["description", "required"], description=TEXT, required=FLAG, content=each("media", "^[a-z]+/")),
        "media": fields(["schema"], ["example"], schema={"$ref": "#/$defs/schema"}),
        "responses": either("response"),
        "response": fields(
            ["description"], ["headers", "content"], description=TEXT, headers=each("headers"), content=each("media", r"^([a-z]+|\*)/")
        ),
        "headers": either("header"),
        "header": fields(["schema"], ["description", "required"], description=TEXT, required=FLAG, schema={"$ref": "#/$defs/schema"}),
        "schema": {"type": ["object", "boolean"]},
        "security": fields(
            ["type", "name", "in"], ["description"], type={"const": "apiKey"}, **{"in": {"enum": ["query", "header", "cookie"]}}
        ),
        "components": fields(
            [],
            ["schemas", "responses", "parameters", "requestBodies", "headers", "securitySchemes"],
            schemas=each("schema"),
            responses=each("responses"),
            parameters=each("parameters"),
            requestBodies=each("body"),
            headers=each("headers"),
            securitySchemes=each("security"),
        ),
    },
}
